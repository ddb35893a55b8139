//! The crate on its own cases: refusals in words, room, files.
use sam_header::{
    binary_in, binary_out, calls, carry_on, faults, judge_merge, read_header, tidy, BinaryLen, Form, Header, Kind, LineNo,
    Node, ProgramNo, Refusal, Unmerged, Which,
};
use std::io::{ErrorKind, Read};

const TEXT: &[u8] = b"@PG\tID:bwa\n@SQ\tLN:0248956422\tSN:chr1\r\n@PG\tID:sort\tPP:bwa\n@RG\tID:lane3\tSM:NA12878\n";

fn number<T>(answer: Result<T, Refusal>) -> u8 {
    answer.err().map_or(0, |refusal| refusal.number)
}

#[test]
fn what_a_plan_asks() {
    let header = Header::read(TEXT).unwrap();
    assert_eq!(header.count(Kind::Reference), 1);
    let chr1 = header.references().next().unwrap();
    assert_eq!((chr1.name(), chr1.length(), chr1.line()), (&b"chr1"[..], 248956422, LineNo(1)));
    assert_eq!(header.programs().map(|program| program.line()).collect::<Vec<_>>(), [LineNo(0), LineNo(2)]);
    let lane = header.read_groups().next().unwrap();
    assert_eq!((lane.id(), lane.get(b"SM"), lane.get(b"DS")), (&b"lane3"[..], Some(&b"NA12878"[..]), None));
    assert!(header.header().is_none() && header.comments().next().is_none());
    let chains = header.chains().unwrap();
    assert_eq!(chains.nodes, [Node { parent: u32::MAX, depth: 0 }, Node { parent: 0, depth: 1 }]);
    assert_eq!((chains.leaves, chains.hops), (vec![ProgramNo(1)], 1));
    let version = Header::read(b"@HD\tVN:01.6\tSO:unsorted\n@CO\tone\n").unwrap();
    assert_eq!(version.header().map(|hd| hd.version()), Some((1, 6)));
    assert_eq!(version.comments().map(|comment| comment.says()).collect::<Vec<_>>(), [b"one"]);
}

#[test]
fn a_kept_catalogue() {
    let kept = Header::read(TEXT).unwrap().into_catalogue();
    assert!(Header::from_kept(TEXT, kept.clone()).is_ok());
    let longer = [TEXT, b"@CO\tone line more\n"].concat();
    let stale = Header::from_kept(&longer, kept).unwrap_err();
    assert_eq!(stale.to_string(), "the catalogue is not this text's (refusal 21)");
}

#[test]
fn refusals_in_words() {
    let refusal = tidy(b"@SQ\tSN:chr1\tLN:0").unwrap_err();
    assert_eq!(refusal.to_string(), "line 1: LN is 0 (refusal 13)");
    let header = Header::read(b"@PG\tID:a\n@PG\tID:b-a\tPP:a\n@PG\tID:b\tPP:a\n").unwrap();
    assert_eq!(
        header.add(b"b", b"").map_err(|refusal| refusal.line),
        Ok(b"@PG\tID:a\n@PG\tID:b-a\tPP:a\n@PG\tID:b\tPP:a\n@PG\tID:b-b\tPP:b\n@PG\tID:b-b-a\tPP:b-a\n".to_vec())
    );
    let used = Header::read(b"@PG\tID:a\n@PG\tID:b\n@PG\tID:x-b\tPP:b\n@PG\tID:x\tPP:a\n@PG\tID:x-x\tPP:a")
        .unwrap()
        .add(b"x", b"")
        .unwrap_err();
    assert_eq!((used.number, used.line), (18, None)); // of a program that is not there: no line
    assert_eq!(Refusal::from_number(0), None);
    assert_eq!(Refusal::from_number(34), None);
}

#[test]
fn names_are_the_header_files() {
    let header = include_str!(concat!(env!("CARGO_MANIFEST_DIR"), "/../../include/sam_header.h"));
    let mut seen = 0;
    for line in header.lines().filter_map(|line| line.trim().strip_prefix("SAM_HEADER_")) {
        let Some((name, rest)) = line.split_once(" = ") else { continue };
        let number: u8 = rest.chars().take_while(char::is_ascii_digit).collect::<String>().parse().unwrap();
        assert_eq!(Refusal::from_number(number).unwrap().name(), name.to_lowercase().replace('_', "-"));
        seen += 1;
    }
    assert!(seen >= 32, "{seen} numbers in the header file");
}

#[test]
fn past_a_bad_line() {
    let (out, skipped) = carry_on(b"@SQ\tSN:chr1\tLN:0\nx\n@SQ\tLN:08\tSN:chr1\n").unwrap();
    assert_eq!(out, b"@SQ\tSN:chr1\tLN:8\n");
    assert_eq!(skipped.iter().map(|r| (r.number, r.line)).collect::<Vec<_>>(), [(13, Some(LineNo(0))), (3, Some(LineNo(1)))]);
    assert_eq!(number(carry_on(b"x\n@SQ\tSN:*\tLN:1")), 24);
    let found = faults(b"x\n@SQ\tSN:*\tLN:1\n@PG\tID:a\tPP:a\n@PG\tID:b\tPP:c").unwrap();
    assert_eq!(found.iter().map(|r| r.number).collect::<Vec<_>>(), [3, 24, 23, 22]);
}

#[test]
fn out_and_in() {
    let bytes = binary_out(b"@SQ\tLN:08\tSN:a").unwrap();
    assert_eq!(binary_in(&bytes), tidy(b"@SQ\tLN:08\tSN:a"));
    assert_eq!(number(binary_in(&bytes[1..])), 28);
    assert_eq!(number(binary_in(&[&bytes[..22], &b"\0\0\0\0"[..]].concat())), 29);
    for n in 0..bytes.len() {
        assert!(matches!(calls::binary_len(&bytes[..n]), Ok(BinaryLen::More(more)) if n < more && more <= bytes.len()));
    }
    assert_eq!(calls::binary_len(&[&bytes[..], b"more"].concat()), Ok(BinaryLen::Whole(bytes.len())));
    assert_eq!(number(calls::binary_len(b"BAX")), 28);
}

#[test]
fn pruned() {
    let header = Header::read(TEXT).unwrap();
    let rest = b"@SQ\tSN:chr1\tLN:248956422\n@RG\tID:lane3\tSM:NA12878\n";
    assert_eq!(header.prune(&[ProgramNo(1), ProgramNo(1)]), tidy(TEXT)); // `sort` needs `bwa`
    assert_eq!(header.prune(&[ProgramNo(0)]), Ok([&rest[..], b"@PG\tID:bwa\n"].concat()));
    assert_eq!(header.prune(&[]), Ok(rest.to_vec()));
    assert_eq!(number(header.prune(&[ProgramNo(0), ProgramNo(2)])), 25);
    assert_eq!(number(Header::read(b"@PG\tID:a\tPP:nobody\n@PG\tID:b\n").unwrap().prune(&[ProgramNo(1)])), 22);
}

#[test]
fn a_merge_made_elsewhere() {
    let a = b"@SQ\tSN:chr1\tLN:8\n@PG\tID:bwa\n@PG\tID:sort\tPP:bwa\n";
    let b = b"@SQ\tSN:chr2\tLN:9\n@PG\tID:bwa\tVN:2\n";
    let merged = b"@SQ\tSN:chr1\tLN:8\n@SQ\tSN:chr2\tLN:9\n@PG\tID:bwa\n@PG\tID:bwa-2\tVN:2\n@PG\tID:sort\tPP:bwa\n";
    let together = |answer: Result<(), Unmerged>| match answer {
        Err(Unmerged::Together(refusal)) => refusal.number,
        other => panic!("{other:?}"),
    };
    assert_eq!(judge_merge(a, b, merged, &[0, 2], &[1]), Ok(()));
    assert_eq!(together(judge_merge(a, b, merged, &[0, 2], &[0])), 31);
    assert_eq!(together(judge_merge(a, b, merged, &[1, 2], &[0])), 32);
    assert_eq!(together(judge_merge(b, a, merged, &[1], &[0, 2])), 30);
    let zero = judge_merge(a, b"@SQ\tSN:chr2\tLN:0\n", merged, &[0, 2], &[1]).unwrap_err();
    assert_eq!(zero.to_string(), "B: line 1: LN is 0 (refusal 13)");
    let dangling = judge_merge(a, b, b"@PG\tID:a\tPP:b\n", &[0, 2], &[1]);
    assert!(matches!(dangling, Err(Unmerged::Text(Which::Merged, refusal)) if refusal.number == 22));
}

#[test]
fn room_for_every_text() {
    let many = |line: &str| (0..600).map(|i| line.replace('#', &i.to_string())).collect::<String>().into_bytes();
    let texts = [
        &b""[..],
        b"@CO\t",
        b"@CO\t\n@CO\t",
        b"@RG\tID:a\tAA:a\tAB:a\tAC:a",
        &many("@PG\tID:#\n"),
        &many("@SQ\tSN:#\tLN:#1\n"),
    ];
    for text in texts {
        let header = Header::read(text).unwrap();
        assert!(tidy(text).is_ok() && faults(text) == Ok(Vec::new()));
        assert!(header.add(b"x", b"\tPN:x\tCL:a b").is_ok() || header.count(Kind::Program) > 512);
        assert_eq!(carry_on(text), tidy(text).map(|t| (t, Vec::new())));
        assert_eq!(binary_in(&binary_out(text).unwrap()), tidy(text));
    }
    assert_eq!(number(tidy(&vec![b'@'; sam_header::TEXT_LIMIT + 1])), 1);
}

/// 300,000 bytes: texts of more than 256 KiB are judged with a work area from the heap.
fn long_text() -> Vec<u8> {
    (0..14_000).map(|i| format!("@SQ\tSN:chr{i:05}\tLN:9\n")).collect::<String>().into_bytes()
}

/// A stream that gives one byte at a time.
struct Drops<'x>(&'x [u8]);

impl Read for Drops<'_> {
    fn read(&mut self, into: &mut [u8]) -> std::io::Result<usize> {
        let n = into.len().min(1);
        self.0.read(&mut into[..n])
    }
}

const RECORD: &[u8] = b"read1\t0\tchr1\t1\t60\t4M\t*\t0\t0\tACGT\tIIII\n";

#[test]
fn headers_of_sam_files() {
    let cases: [(&[u8], usize); 7] = [
        (b"", 0),
        (b"@CO\tx", 5),
        (b"@CO\tx\n@CO\ty\n", 12),
        (b"@CO\tx\n\n@CO\ty\n", 13),  // an empty line is left in, to be refused
        (b"@CO\tx\n\n\n@CO\ty\n", 7), // two are not
        (b">chr1\nACGT\nACGT\n", 6),  // another format: its first line is refused
        (b"@CO\tx\nread\t0\n", 13),   // no alignment record
    ];
    for (text, end) in cases {
        for behind in [&b""[..], RECORD] {
            let behind = if text.ends_with(b"\n") || text.is_empty() { behind } else { b"" };
            let file = [text, behind].concat();
            let found = read_header(&file[..]).unwrap();
            assert_eq!((found.form(), found.text()), (Form::Sam, &text[..end]));
            assert_eq!(read_header(Drops(&file)).unwrap().text(), &text[..end]);
        }
    }
    let long = long_text();
    assert_eq!(read_header(&[&long[..], RECORD].concat()[..]).unwrap().text(), long);
}

#[test]
fn headers_of_bam_streams() {
    for text in [TEXT, b"", &long_text()] {
        let bytes = binary_out(text).unwrap();
        let stream = [&bytes[..], &[7; 100]].concat();
        let found = read_header(&stream[..]).unwrap();
        assert_eq!((found.form(), found.tidy()), (Form::Bam, tidy(text)));
        assert_eq!(Ok(found.text().to_vec()), tidy(text));
        assert!(found.read().is_ok());
        for n in [4, 8, bytes.len() / 2, bytes.len() - 1] {
            assert_eq!(read_header(&bytes[..n]).unwrap_err().kind(), ErrorKind::UnexpectedEof);
        }
    }
    let other = binary_out(b"@SQ\tSN:a\tLN:8\n")
        .unwrap()
        .iter()
        .rev()
        .enumerate()
        .map(|(i, &b)| if i == 3 { 9 } else { b })
        .collect::<Vec<_>>();
    let other: Vec<u8> = other.into_iter().rev().collect();
    assert_eq!(number(read_header(&other[..]).unwrap().read()), 29);
    let endless = [&b"BAM\x01"[..], &[255; 8]].concat();
    assert_eq!(read_header(endless.chain(std::io::repeat(0))).unwrap_err().kind(), ErrorKind::InvalidData);
}

#[cfg(feature = "flate2")]
#[test]
fn headers_in_gzip() {
    use std::io::Write;
    let packed = |bytes: &[u8]| {
        let mut file = Vec::new();
        for part in bytes.chunks(1000) {
            let mut gz = flate2::write::GzEncoder::new(Vec::new(), flate2::Compression::fast());
            gz.write_all(part).unwrap();
            file.extend(gz.finish().unwrap()); // one member after another, as BGZF has them
        }
        file
    };
    let long = long_text();
    assert_eq!(read_header(&packed(&[&long[..], RECORD].concat())[..]).unwrap().text(), long);
    let bam = packed(&[&binary_out(TEXT).unwrap()[..], &[7; 5000]].concat());
    assert_eq!(read_header(&bam[..]).unwrap().tidy(), tidy(TEXT));
    assert!(read_header(&bam[..bam.len() / 20]).is_err());
}

#[cfg(feature = "serde")]
#[test]
fn serialized() {
    fn is<T: serde::Serialize + for<'d> serde::Deserialize<'d>>() {}
    is::<Refusal>();
    is::<sam_header::Seal>();
    is::<sam_header::Chains>();
}
