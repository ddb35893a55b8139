//! What the crate says beside the proved calls equals what they answer: over texts made by chance, and those of the stored cases.
use sam_header::{calls, carry_on, faults, tidy, Header, Kind, ProgramNo};

/// Numbers by chance, the same in each run (xorshift).
struct Chance(u64);

impl Chance {
    fn below(&mut self, n: usize) -> usize {
        self.0 ^= self.0 << 13;
        self.0 ^= self.0 >> 7;
        self.0 ^= self.0 << 17;
        (self.0 >> 11) as usize % n
    }

    fn of<'x>(&mut self, list: &[&'x str]) -> &'x str {
        list[self.below(list.len())]
    }
}

/// A header that is accepted more often than not.
fn text(chance: &mut Chance) -> Vec<u8> {
    let mut text = String::new();
    if chance.below(2) == 0 {
        text += chance.of(&["@HD\tVN:1.6\n", "@HD\tSO:unsorted\tVN:01.5\tSO:coordinate\r\n", "@HD\tVN:1.6\tGO:query\n"]);
    }
    for i in 0..chance.below(12) {
        let wrong = chance.below(60) == 0;
        let mut fields = match chance.of(&["@SQ", "@SQ", "@RG", "@PG", "@PG", "@CO"]) {
            "@SQ" => vec![
                "@SQ".into(),
                format!("SN:{}{i}", chance.of(&["chr", "s", "*", "HLA*"])),
                format!("LN:{}", if wrong { 0 } else { 7 + i }),
            ],
            "@RG" => vec!["@RG".into(), format!("ID:lane{}", i % 9)],
            "@PG" => vec!["@PG".into(), format!("ID:p{i}"), format!("PP:p{}", if wrong { 77 } else { chance.below(i + 1) })],
            _ => vec![format!("@CO\tnote {i}")],
        };
        if !fields[0].starts_with("@CO") {
            if fields[0] == "@PG" && chance.below(3) > 0 {
                fields.pop();
            }
            for tag in ["M5", "SM", "DS", "VN"].iter().take(chance.below(5)) {
                fields.insert(1 + chance.below(fields.len()), format!("{tag}:{}", chance.of(&["a", "x y", "1.2", "~"])));
            }
        }
        text += &fields.join("\t");
        text += chance.of(&["\n", "\n", "\n", "\r\n", if wrong { "\n\n" } else { "\n" }]);
    }
    text.into_bytes()
}

fn held_to_the_calls(text: &[u8], header: &Header) {
    let kept = header.catalogue();
    let part = |(at, n): (usize, usize)| &text[at..at + n];
    for kind in Kind::ALL {
        assert_eq!(calls::count(text, kept, kind), Ok(header.count(kind)));
        assert_eq!(header.records(kind).len(), header.count(kind));
        assert!(header.get(kind, header.count(kind) as u32).is_none());
        for (i, record) in (0..).zip(header.records(kind)) {
            assert_eq!((record.kind(), record.ordinal()), (kind, i));
            assert_eq!(calls::line(text, kept, kind, i), Ok(record.line().0));
            for (tag, value) in record.fields() {
                assert_eq!(calls::field(text, kept, kind, i, tag).map(part), Some(value));
                assert_eq!(record.get(&tag), Some(value));
            }
            for tag in [b"XX", b"SN", b"ID", b"LN", b"M5", b"PP", b"VN"] {
                assert_eq!(calls::field(text, kept, kind, i, *tag).map(part), record.get(tag));
            }
            if !matches!(kind, Kind::Header | Kind::Comment) {
                assert_eq!(calls::key(text, kept, kind, i).map(part), Ok(record.key()));
                assert_eq!(header.find(kind, record.key()).map(|found| found.ordinal()), Some(i));
                assert_eq!(header.get(kind, i).unwrap().key(), record.key());
            }
        }
    }
    let mut table = vec![0; 3 * header.count(Kind::Reference)];
    assert_eq!(calls::references(text, kept, &mut table), Ok(header.count(Kind::Reference)));
    for ((i, reference), row) in (0..).zip(header.references()).zip(table.chunks(3)) {
        assert_eq!(calls::length(text, kept, i), Ok(u64::from(reference.length())));
        assert_eq!(header.reference(i).map(|again| again.line()), Some(reference.line()));
        assert_eq!((part((row[0] as usize, row[1] as usize)), row[2]), (reference.name(), reference.length()));
    }
    let mut asked: Vec<&[u8]> = header.references().map(|reference| reference.name()).collect();
    asked.extend([&b"nobody"[..], b"", b"a\nb"]);
    let due = (0..header.count(Kind::Reference) as u32).map(Some).chain([None; 3]).collect::<Vec<_>>();
    assert_eq!(header.names(asked).unwrap().ordinals, due);
    assert!(header.find(Kind::Reference, b"nobody").is_none());
}

fn chains_held_to_the_calls(text: &[u8], header: &Header) {
    let mut out = [0; 1024];
    let asked = calls::leaves(text, header.catalogue(), &mut out);
    let Ok(chains) = header.chains() else {
        assert_eq!(asked.map(|_| ()), header.chains().map(|_| ()));
        return;
    };
    assert_eq!(asked, Ok((chains.hops as usize, chains.leaves.len())));
    assert_eq!(chains.leaves, out[..chains.leaves.len()].iter().copied().map(ProgramNo).collect::<Vec<_>>());
    assert_eq!(header.roots(), Ok(chains.children(None).collect()));
    let programs: Vec<_> = header.programs().collect();
    for (program, node) in programs.iter().zip(&chains.nodes) {
        assert_eq!(program.get(b"PP"), node.parent().map(|parent| programs[parent.0 as usize].id()));
    }
    assert_eq!(chains.nodes.iter().map(|node| node.depth).sum::<u32>(), chains.hops);
    let all: Vec<_> = programs.iter().map(|program| program.number()).collect();
    assert_eq!(header.prune(&all), header.tidy());
    if let Ok(added) = header.add(b"new", b"\tPN:x") {
        let after = Header::read(&added).unwrap();
        assert_eq!(after.count(Kind::Program), all.len() + chains.leaves.len().max(1));
    }
}

fn faults_held_to_the_calls(text: &[u8]) {
    let found = faults(text).unwrap();
    let read = Header::read(text);
    let good = tidy(text).is_ok() && read.as_ref().is_ok_and(|header| header.chains().is_ok());
    assert_eq!(found.is_empty(), good);
    if let Err(refusal) = read {
        assert_eq!(found.iter().find(|fault| !matches!(fault.number, 22..=24)), Some(&refusal));
    }
    if let Ok((_, skipped)) = carry_on(text) {
        assert_eq!(found.into_iter().filter(|fault| !matches!(fault.number, 22 | 23)).collect::<Vec<_>>(), skipped);
    }
}

fn sealed(text: &[u8], header: &Header) {
    let Ok(tidy) = header.tidy() else { return assert_eq!(header.seal().err(), header.tidy().err()) };
    let seal = header.seal().unwrap();
    assert_eq!(Header::read(&tidy).unwrap().seal(), Ok(seal));
    let kept = header.catalogue().to_vec();
    assert!(Header::from_sealed(text, kept.clone(), &seal).is_ok());
    let mut other = seal;
    other.0[31] ^= 1;
    assert_eq!(Header::from_sealed(text, kept, &other).unwrap_err().number, 33);
}

/// The texts of the stored cases that are not long, since each record is asked for by calls that judge the whole: words in hex that start with an `@`.
fn stored() -> Vec<Vec<u8>> {
    let folder = std::path::Path::new(env!("CARGO_MANIFEST_DIR")).join("../../crates/replay/data");
    let read = |name| std::fs::read_to_string(folder.join(name)).expect("the stored cases are there");
    let files = ["oracle.txt", "readings.txt", "requests.txt", "vectors.txt", "chains.txt"].map(read);
    let bytes = |word: &str| {
        (0..word.len() / 2).map(|i| u8::from_str_radix(word.get(2 * i..2 * i + 2)?, 16).ok()).collect::<Option<Vec<u8>>>()
    };
    files
        .iter()
        .flat_map(|file| file.split_whitespace())
        .filter(|word| word.starts_with("40") && word.len() <= 4000)
        .filter_map(bytes)
        .collect()
}

#[test]
fn what_the_crate_says_is_what_the_calls_answer() {
    let (mut chance, mut accepted) = (Chance(1), 0);
    let mut texts = stored();
    texts.sort();
    texts.dedup();
    let stored = texts.len();
    texts.extend((0..3000).map(|_| text(&mut chance)));
    for text in texts {
        faults_held_to_the_calls(&text);
        let Ok(header) = Header::read(&text) else { continue };
        accepted += 1;
        held_to_the_calls(&text, &header);
        chains_held_to_the_calls(&text, &header);
        sealed(&text, &header);
        assert_eq!(
            Header::from_kept(&text, header.catalogue().to_vec()).unwrap().count(Kind::Program),
            header.count(Kind::Program)
        );
        assert_eq!(header.to_binary().and_then(|bytes| sam_header::binary_in(&bytes)), header.tidy());
    }
    assert!(stored > 2000 && accepted > 2500, "{stored} stored texts, {accepted} texts accepted");
}
