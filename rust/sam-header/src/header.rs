//! A text with its catalogue, and what may be asked of both.
use crate::calls;
use crate::texts::{room, work_area, written};
use crate::{Kind, LineNo, Node, ProgramNo, Refusal, Seal, PROGRAM_LIMIT};
use std::ops::Deref;

/// A text that reading accepts, and its catalogue. One is made only by reading or by the check of a kept catalogue, so that the catalogue is this text's.
///
/// ```
/// use sam_header::{Header, Kind};
///
/// let header = Header::read(b"@SQ\tSN:chr1\tLN:9\tM5:f98d\n@RG\tID:lane3\tSM:NA12878\n")?;
/// for reference in header.references() {
///     assert_eq!((reference.name(), reference.length()), (&b"chr1"[..], 9));
///     assert_eq!(reference.get(b"M5"), Some(&b"f98d"[..]));
/// }
/// assert_eq!(header.get(Kind::ReadGroup, 0).unwrap().line().to_string(), "2");
/// # Ok::<(), sam_header::Refusal>(())
/// ```
#[derive(Clone, Debug)]
pub struct Header<'a> {
    text: &'a [u8],
    catalogue: Vec<u8>,
    /// By kind, where each record's entry starts in the catalogue.
    starts: [Vec<u32>; 5],
}

/// How many bytes an entry has, by its kind.
const SIZES: [usize; 7] = [0, 13, 21, 13, 13, 13, 11];

/// Four bytes of an entry, lowest first. An entry that is checked is never short.
fn number(entry: &[u8], at: usize) -> u32 {
    entry.get(at..at + 4).and_then(|bytes| bytes.try_into().ok()).map_or(0, u32::from_le_bytes)
}

/// The part of the text whose offset and length are in an entry.
fn part<'h>(text: &'h [u8], entry: &[u8], at: usize) -> &'h [u8] {
    let from = number(entry, at) as usize;
    text.get(from..from + number(entry, at + 4) as usize).unwrap_or_default()
}

fn starts_of(catalogue: &[u8]) -> [Vec<u32>; 5] {
    let mut starts = [const { Vec::new() }; 5];
    let mut at = 0;
    while let Some(&kind) = catalogue.get(at) {
        if let Some(list) = starts.get_mut(usize::from(kind).wrapping_sub(1)) {
            list.push(at as u32);
        }
        at += SIZES.get(usize::from(kind)).filter(|&&size| size > 0).unwrap_or(&catalogue.len());
    }
    starts
}

/// Many names at once.
#[derive(Clone, Debug, Eq, PartialEq)]
pub struct NamesAnswer {
    /// The ordinal of each name among the references, in the order asked; None for a name that no reference has.
    pub ordinals: Vec<Option<u32>>,
    /// How many slots of the index were looked at in answering.
    pub inspected: u64,
}

/// The programs as a forest.
#[derive(Clone, Debug, Eq, PartialEq)]
#[cfg_attr(feature = "serde", derive(serde::Serialize, serde::Deserialize))]
pub struct Chains {
    /// Each program's parent and depth.
    pub nodes: Vec<Node>,
    /// The programs that no PP names, in the order in which adding takes them.
    pub leaves: Vec<ProgramNo>,
    /// The sum of the numbers of parent links from every program to its root.
    pub hops: u32,
}

impl Chains {
    /// The programs whose PP names this one, in order; the roots for None.
    pub fn children(&self, of: Option<ProgramNo>) -> impl Iterator<Item = ProgramNo> + '_ {
        (0..).zip(&self.nodes).filter(move |(_, node)| node.parent() == of).map(|(i, _)| ProgramNo(i))
    }
}

impl<'a> Header<'a> {
    /// Reads a header.
    pub fn read(text: &'a [u8]) -> Result<Self, Refusal> {
        let mut catalogue = written(room(text, 3, 1), |out| calls::read_with(text, out, &mut work_area(text)))?;
        catalogue.shrink_to_fit();
        Ok(Header { text, starts: starts_of(&catalogue), catalogue })
    }

    /// The text with a catalogue that was kept: 21 if it is not this text's. A catalogue holds no bytes of names: [`Header::from_sealed`] also
    /// notices when those were edited.
    pub fn from_kept(text: &'a [u8], catalogue: Vec<u8>) -> Result<Self, Refusal> {
        calls::check_with(text, &catalogue, &mut work_area(text))?;
        Ok(Header { text, starts: starts_of(&catalogue), catalogue })
    }

    /// The text with a catalogue and a seal that were kept: 33 if the seal is another header's.
    ///
    /// ```
    /// use sam_header::Header;
    ///
    /// let before = Header::read(b"@SQ\tSN:chr1\tLN:9\n")?;
    /// let (kept, seal) = (before.catalogue().to_vec(), before.seal()?);
    /// let edited = b"@SQ\tSN:chrX\tLN:9\n";
    /// assert!(Header::from_kept(edited, kept.clone()).is_ok()); // every offset, length and LN is the same
    /// assert_eq!(Header::from_sealed(edited, kept, &seal).unwrap_err().number, 33);
    /// # Ok::<(), sam_header::Refusal>(())
    /// ```
    pub fn from_sealed(text: &'a [u8], catalogue: Vec<u8>, seal: &Seal) -> Result<Self, Refusal> {
        calls::check_sealed(text, &catalogue, &seal.0, &mut vec![0; room(text, 1, 1)])?;
        Ok(Header { text, starts: starts_of(&catalogue), catalogue })
    }

    /// The text as it was given.
    pub fn text(&self) -> &'a [u8] {
        self.text
    }

    /// What a plan keeps.
    pub fn catalogue(&self) -> &[u8] {
        &self.catalogue
    }

    /// The catalogue itself.
    pub fn into_catalogue(self) -> Vec<u8> {
        self.catalogue
    }

    fn starts(&self, kind: Kind) -> &[u32] {
        &self.starts[kind as usize - 1]
    }

    /// How many records of a kind there are.
    pub fn count(&self, kind: Kind) -> usize {
        self.starts(kind).len()
    }

    /// A record by its ordinal within its kind, from 0: one look, however many there are.
    pub fn get(&self, kind: Kind, ordinal: u32) -> Option<Record<'_>> {
        let start = *self.starts(kind).get(ordinal as usize)?;
        Some(Record { kind, ordinal, text: self.text, entries: self.catalogue.get(start as usize..)? })
    }

    /// The records of a kind, in order.
    pub fn records(&self, kind: Kind) -> impl ExactSizeIterator<Item = Record<'_>> + DoubleEndedIterator {
        let record = move |(i, &start): (usize, &u32)| {
            let entries = self.catalogue.get(start as usize..).unwrap_or_default();
            Record { kind, ordinal: i as u32, text: self.text, entries }
        };
        self.starts(kind).iter().enumerate().map(record)
    }

    /// The HD line, where there is one.
    pub fn header(&self) -> Option<HeaderLine<'_>> {
        self.get(Kind::Header, 0).map(HeaderLine)
    }

    /// The SQ lines.
    pub fn references(&self) -> impl ExactSizeIterator<Item = Reference<'_>> + DoubleEndedIterator {
        self.records(Kind::Reference).map(Reference)
    }

    /// The RG lines.
    pub fn read_groups(&self) -> impl ExactSizeIterator<Item = ReadGroup<'_>> + DoubleEndedIterator {
        self.records(Kind::ReadGroup).map(ReadGroup)
    }

    /// The PG lines.
    pub fn programs(&self) -> impl ExactSizeIterator<Item = Program<'_>> + DoubleEndedIterator {
        self.records(Kind::Program).map(Program)
    }

    /// The CO lines.
    pub fn comments(&self) -> impl ExactSizeIterator<Item = Comment<'_>> + DoubleEndedIterator {
        self.records(Kind::Comment).map(Comment)
    }

    /// The SQ with this ordinal: one look.
    pub fn reference(&self, ordinal: u32) -> Option<Reference<'_>> {
        self.get(Kind::Reference, ordinal).map(Reference)
    }

    /// The PG with this ordinal: one look.
    pub fn program(&self, number: ProgramNo) -> Option<Program<'_>> {
        self.get(Kind::Program, number.0).map(Program)
    }

    /// The SQ, RG or PG with this name or ID, by the proved search. It judges the text again: ask for many names by [`Header::names`], or put the
    /// records into a map.
    pub fn find(&self, kind: Kind, key: &[u8]) -> Option<Record<'_>> {
        self.get(kind, calls::find(self.text, &self.catalogue, kind, key).ok()?)
    }

    /// Many names at once, by the proved index: the ordinal of each among the references. 1 where the names together have more than 16,777,216 bytes.
    ///
    /// ```
    /// let header = sam_header::Header::read(b"@SQ\tSN:chr1\tLN:8\n@SQ\tSN:chr2\tLN:9\n")?;
    /// assert_eq!(header.names(["chr2", "chrX"])?.ordinals, [Some(1), None]);
    /// # Ok::<(), sam_header::Refusal>(())
    /// ```
    pub fn names<N: AsRef<[u8]>>(&self, names: impl IntoIterator<Item = N>) -> Result<NamesAnswer, Refusal> {
        let (mut list, mut asked) = (Vec::new(), 0);
        for name in names {
            // a name with an LF would be taken for two: no reference has one, and none has the empty name either
            let name = Some(name.as_ref()).filter(|name| !name.contains(&b'\n')).unwrap_or_default();
            list.extend_from_slice(name);
            list.push(b'\n');
            asked += 1;
        }
        let mut work = vec![0; (2 * self.count(Kind::Reference)).next_power_of_two().max(2)];
        let mut out = vec![0; asked];
        let (_, inspected) = calls::names(self.text, &self.catalogue, &list, &mut work, &mut out)?;
        Ok(NamesAnswer { ordinals: out.into_iter().map(|i| (i != u32::MAX).then_some(i)).collect(), inspected })
    }

    /// The programs without PP.
    pub fn roots(&self) -> Result<Vec<ProgramNo>, Refusal> {
        let mut out = vec![0; PROGRAM_LIMIT];
        let n = calls::roots(self.text, &self.catalogue, &mut out)?;
        Ok(out.into_iter().take(n).map(ProgramNo).collect())
    }

    /// The programs that no PP names, and the hops: 22 where a PP names no program, 23 for a cycle.
    pub fn leaves(&self) -> Result<(Vec<ProgramNo>, u32), Refusal> {
        self.chains().map(|chains| (chains.leaves, chains.hops))
    }

    /// The programs as a forest: the parent and depth of each, and the leaves.
    ///
    /// ```
    /// use sam_header::{Header, ProgramNo};
    ///
    /// let header = Header::read(b"@PG\tID:bwa\n@PG\tID:sort\tPP:bwa\n@PG\tID:dup\tPP:bwa\n")?;
    /// let chains = header.chains()?;
    /// assert_eq!(chains.children(None).collect::<Vec<_>>(), [ProgramNo(0)]);
    /// assert_eq!(chains.children(Some(ProgramNo(0))).collect::<Vec<_>>(), [ProgramNo(1), ProgramNo(2)]);
    /// assert_eq!((chains.nodes[1].depth, chains.hops), (1, 2));
    /// # Ok::<(), sam_header::Refusal>(())
    /// ```
    pub fn chains(&self) -> Result<Chains, Refusal> {
        let mut nodes = vec![Node::default(); self.count(Kind::Program)];
        let mut out = vec![0; PROGRAM_LIMIT];
        let (hops, n) = calls::leaves_by_table(self.text, &self.catalogue, &mut nodes, &mut out)?;
        Ok(Chains { nodes, leaves: out.into_iter().take(n).map(ProgramNo).collect(), hops: hops as u32 })
    }

    /// The tidy text.
    pub fn tidy(&self) -> Result<Vec<u8>, Refusal> {
        crate::tidy(self.text)
    }

    /// The uncompressed binary header.
    pub fn to_binary(&self) -> Result<Vec<u8>, Refusal> {
        crate::binary_out(self.text)
    }

    /// The SHA-256 of the tidy text, which a plan keeps together with the catalogue.
    pub fn seal(&self) -> Result<Seal, Refusal> {
        let mut seal = Seal([0; 32]);
        calls::seal(self.text, &mut vec![0; room(self.text, 1, 1)], &mut seal.0)?;
        Ok(seal)
    }

    /// The tidy text with a new program after each leaf, its ID made from `prefix`. `fields` are a PG line's, each with its leading tab, or nothing.
    /// 18 where such an ID is there already, 19 for more than 1,024 programs: they have no line here, since they are about programs that are not
    /// there.
    ///
    /// ```
    /// let header = sam_header::Header::read(b"@PG\tID:bwa\n")?;
    /// assert_eq!(header.add(b"sort", b"\tPN:samtools")?, b"@PG\tID:bwa\n@PG\tID:sort\tPN:samtools\tPP:bwa\n");
    /// # Ok::<(), sam_header::Refusal>(())
    /// ```
    pub fn add(&self, prefix: &[u8], fields: &[u8]) -> Result<Vec<u8>, Refusal> {
        // where the chains are refused, so is adding: before it asks for room
        let leaves = self.chains().map(|chains| chains.leaves).unwrap_or_default();
        let id_len = |leaf: &ProgramNo| self.program(*leaf).map_or(0, |program| program.id().len());
        let ids: usize = leaves.iter().map(id_len).sum();
        let lines = leaves.len().max(1) * (prefix.len() + fields.len() + 13) + 2 * ids;
        written(room(self.text, 1, 1) + lines, |out| calls::add(self.text, &self.catalogue, prefix, fields, out))
            .map_err(|refusal| if matches!(refusal.number, 18 | 19) { Refusal { line: None, ..refusal } } else { refusal })
    }

    /// The tidy text with only the programs in use and all their ancestors: 25 for an ordinal that no program has.
    pub fn prune(&self, used: &[ProgramNo]) -> Result<Vec<u8>, Refusal> {
        let used: Vec<u32> = used.iter().map(|program| program.0).collect();
        written(room(self.text, 1, 1), |out| calls::prune(self.text, &self.catalogue, &used, out))
    }
}

/// One record: its line, and its fields other than the keys. [`Reference`], [`ReadGroup`], [`Program`], [`Comment`] and [`HeaderLine`] add what each kind has.
#[derive(Clone, Copy, Debug)]
pub struct Record<'h> {
    kind: Kind,
    ordinal: u32,
    text: &'h [u8],
    /// The catalogue from this record's entry on.
    entries: &'h [u8],
}

impl<'h> Record<'h> {
    /// Its kind.
    pub fn kind(&self) -> Kind {
        self.kind
    }

    /// Its ordinal within its kind, from 0.
    pub fn ordinal(&self) -> u32 {
        self.ordinal
    }

    /// Its line.
    pub fn line(&self) -> LineNo {
        LineNo(number(self.entries, SIZES[self.kind as usize] - 4))
    }

    /// SN or ID; the text of a comment; nothing for an HD.
    pub fn key(&self) -> &'h [u8] {
        if self.kind == Kind::Header {
            &[]
        } else {
            part(self.text, self.entries, 1)
        }
    }

    /// The fields other than the keys, in order: tag and value.
    pub fn fields(&self) -> impl Iterator<Item = ([u8; 2], &'h [u8])> {
        let text = self.text;
        let behind = self.entries.get(SIZES[self.kind as usize]..).unwrap_or_default();
        behind
            .chunks_exact(SIZES[6])
            .take_while(|entry| entry[0] == 6)
            .map(move |entry| ([entry[1], entry[2]], part(text, entry, 3)))
    }

    /// The value of a field. A key (VN of HD, SN and LN of SQ, ID of RG and PG) is not a field.
    pub fn get(&self, tag: &[u8; 2]) -> Option<&'h [u8]> {
        self.fields().find(|field| field.0 == *tag).map(|field| field.1)
    }
}

macro_rules! records {
    ($($(#[$doc:meta])* $name:ident)*) => {$(
        $(#[$doc])*
        #[derive(Clone, Copy, Debug)]
        pub struct $name<'h>(Record<'h>);

        impl<'h> Deref for $name<'h> {
            type Target = Record<'h>;
            fn deref(&self) -> &Record<'h> {
                &self.0
            }
        }
    )*};
}

records! {
    /// An HD line.
    HeaderLine
    /// An SQ line.
    Reference
    /// An RG line.
    ReadGroup
    /// A PG line.
    Program
    /// A CO line.
    Comment
}

impl HeaderLine<'_> {
    /// Major and minor of VN.
    pub fn version(&self) -> (u32, u32) {
        (number(self.entries, 1), number(self.entries, 5))
    }
}

impl<'h> Reference<'h> {
    /// SN.
    pub fn name(&self) -> &'h [u8] {
        self.key()
    }

    /// LN, 1 to 2,147,483,647.
    pub fn length(&self) -> u32 {
        number(self.entries, 9)
    }
}

impl<'h> ReadGroup<'h> {
    /// ID.
    pub fn id(&self) -> &'h [u8] {
        self.key()
    }
}

impl<'h> Program<'h> {
    /// ID.
    pub fn id(&self) -> &'h [u8] {
        self.key()
    }

    /// Its ordinal among the programs.
    pub fn number(&self) -> ProgramNo {
        ProgramNo(self.ordinal)
    }
}

impl<'h> Comment<'h> {
    /// What it says.
    pub fn says(&self) -> &'h [u8] {
        self.key()
    }
}
