//! Reading, checking and tidying with a lent work area: each answers and writes what the call without one does, whatever the area's length and content, and
//! leaves it all zeros.

use library::Answer;

/// Texts of more bytes than this may use the area; a shorter text is judged with an area of the call's own.
const OWN: usize = 262_144;

/// The lengths of the areas to lend: all of them to a text that may use one, and by chance a short or a long one to any other.
fn lengths(text: &[u8], chance: u64) -> Vec<usize> {
    match chance % 64 {
        _ if text.len() > OWN => vec![0, 1, 6_144, 6_145, 70_000, text.len() / 4],
        0 => vec![6_145],
        n => vec![[0, 1, 2, 7][n as usize % 4]],
    }
}

/// Makes both calls, with outputs and an area that hold a pattern. What was answered and written, or what is wrong.
fn both(
    room: usize,
    len: usize,
    plain: impl Fn(&mut [u8]) -> Answer,
    with: impl Fn(&mut [u8], &mut [u32]) -> Answer,
) -> Result<(Answer, Vec<u8>), String> {
    let mut due = vec![0xA5; room];
    let mut out = due.clone();
    let mut work: Vec<u32> = (1..=len as u32).map(|i| i.wrapping_mul(0x9E37_79B1)).collect();
    let (want, got) = (plain(&mut due), with(&mut out, &mut work));
    if got != want {
        return Err(format!("an area of {len}, an output of {room}: {got:?}, without an area {want:?}"));
    }
    if out != due {
        return Err(format!("an area of {len}, an output of {room}: something else is written"));
    }
    if work.iter().any(|&slot| slot != 0) {
        return Err(format!("an area of {len}, an output of {room}: it is not all zeros"));
    }
    Ok((want, due))
}

fn alike(text: &[u8], len: usize) -> Result<(), String> {
    let read = |room| both(room, len, |o| library::read(text, o), |o, w| library::read_with(text, o, w));
    let tidy = |room| both(room, len, |o| library::tidy(text, o), |o, w| library::tidy_with(text, o, w)).map(|_| ());
    let check = |c: &[u8]| both(0, len, |_| library::check(text, c), |_, w| library::check_with(text, c, w)).map(|_| ());
    let (answer, mut catalogue) = read(3 * text.len() + 1)?;
    catalogue.truncate(answer.unwrap_or(0) as usize);
    let _ = read(catalogue.len().saturating_sub(1))?; // 20
    check(&catalogue)?;
    check(&[&catalogue[..], &[0]].concat())?;
    tidy(text.len() + 1)?;
    tidy(0)?;
    Ok(())
}

/// What is wrong, if anything.
pub fn wrong(text: &[u8], chance: u64) -> Option<String> {
    lengths(text, chance).into_iter().find_map(|len| alike(text, len).err())
}
