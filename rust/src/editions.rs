//! The second edition of the parcel, whose edges have addresses of 32 bits, and the converters between the two editions.
use crate::{bytes_put, calls, done, rising, size_put, Counts, Fault, Refusal, Technique, Verdict, MAX_PARCEL};

/// The bytes of the longest parcel of the second edition: as [`MAX_PARCEL`], with edges of 8 bytes.
pub const MAX_WIDE_PARCEL: usize = 49_164;

/// Checks a program whose edge numbers have 32 bits, by the rules of [`check`](crate::check): a number above 65,535 is outside
/// code as any other is that is n or more.
///
/// ```
/// use post_guard::{check_wide, encode, Instruction::*, Place, Refusal, Technique, Verdict};
///
/// let code = [
///     Movi { rd: 5, w: 7 },
///     Addi { rd: 0, rs: 5, w: 0 },
///     Ld { rd: 1, rs: 0, w: 0 },
///     Movi { rd: 2, w: 7 },
///     Bgt { rs: 1, rt: 2, w: 8 },
///     Bgt { rs: 2, rt: 1, w: 8 },
///     Jmp { rs: 0 },
///     Label { w: 7 },
///     Illegal,
/// ];
/// let memory = code.map(encode);
/// assert_eq!(check_wide(Technique::Plain, &memory, 9, &[6, 7]), Verdict::Accepted);
///
/// // 65,543 has the same low 16 bits as 7
/// let verdict = check_wide(Technique::Plain, &memory, 9, &[6, 65_543]);
/// assert_eq!(verdict, Verdict::Refused(Refusal::TargetOutsideCode, Some(Place::Edge(0))));
/// ```
#[inline]
pub fn check_wide(technique: Technique, memory: &[u64], n: usize, edges: &[u32]) -> Verdict {
    let mut place = [0u64; 2];
    let number = calls::check_wide(technique.number(), memory, n, edges, &mut place);
    Verdict::of(number, place)
}

/// Reads a parcel of the second edition: code, and data directly after it, into the memory, and edge numbers into the edges.
/// Nothing past them is touched, and a refusal changes nothing.
///
/// ```
/// use post_guard::{read_wide_parcel, Counts, Refusal};
/// // an illegal code word, the edge from 6 to 70,000, no data
/// let parcel = [1u32.to_le_bytes(), [255; 4], [255; 4], [1, 0, 0, 0], [6, 0, 0, 0], 70_000u32.to_le_bytes(), [0; 4]].concat();
///
/// let (mut memory, mut edges) = ([5; 2], [5; 4]);
/// let counts = read_wide_parcel(&parcel, &mut memory, &mut edges);
/// assert_eq!(counts, Ok(Counts { code_words: 1, edges: 1, data_words: 0 }));
/// assert_eq!((memory, edges), ([u64::MAX, 5], [6, 70_000, 5, 5]));
///
/// assert_eq!(read_wide_parcel(&parcel, &mut memory, &mut edges[..1]), Err(Refusal::PlaceTooShort));
/// assert_eq!(read_wide_parcel(&parcel[..26], &mut memory, &mut edges), Err(Refusal::CountMissing));
/// ```
#[inline]
pub fn read_wide_parcel(parcel: &[u8], memory: &mut [u64], edges: &mut [u32]) -> Result<Counts, Refusal> {
    let mut counts = [0u64; 3];
    done(calls::read_wide_parcel(parcel, memory, edges, &mut counts))?;
    Ok(Counts::of(counts))
}

/// Writes a program as a parcel of the second edition, and gives the number of its bytes. The edges must rise by jump address,
/// then by target, without repeats; a refusal says at which edge they do not. Nothing past the bytes is touched, and a refusal
/// changes nothing.
///
/// ```
/// use post_guard::{write_wide_parcel, Place, Refusal};
/// let mut parcel = [0; 100];
/// assert_eq!(write_wide_parcel(&[7], 1, &[5, 9, 6, 70_000], &mut parcel), Ok(36));
/// assert_eq!(parcel[24..32], [6, 0, 0, 0, 0x70, 0x11, 1, 0]); // 70,000 is hex 11170
///
/// let fault = write_wide_parcel(&[7], 1, &[6, 70_000, 5, 9], &mut parcel).unwrap_err();
/// assert_eq!((fault.refusal, fault.place), (Refusal::EdgeNotRising, Some(Place::Edge(1))));
/// ```
#[inline]
pub fn write_wide_parcel(memory: &[u64], n: usize, edges: &[u32], parcel: &mut [u8]) -> Result<usize, Fault> {
    let (mut count, mut place) = ([0u64; 1], [0u64; 2]);
    let number = calls::write_wide_parcel(memory, n, edges, parcel, &mut count, &mut place);
    size_put(number, count, place)
}

/// Writes a parcel of the first edition again as one of the second, and gives the number of its bytes: four more for each edge.
/// Every parcel that can be read can be widened. Its edges stay as they are listed, whether they rise or not. Nothing past the
/// bytes is touched, and a refusal changes nothing.
///
/// ```
/// use post_guard::{widen, Refusal, MAX_WIDE_PARCEL};
/// // an illegal code word, the edge from 6 to 65,535, no data
/// let parcel = [1u32.to_le_bytes(), [255; 4], [255; 4], [1, 0, 0, 0], [6, 0, 255, 255], [0; 4]].concat();
///
/// let mut wide = [0; MAX_WIDE_PARCEL];
/// assert_eq!(widen(&parcel, &mut wide), Ok(28));
/// assert_eq!(wide[16..24], [6, 0, 0, 0, 255, 255, 0, 0]);
/// assert_eq!(widen(&parcel, &mut wide[..27]), Err(Refusal::PlaceTooShort));
/// ```
#[inline]
pub fn widen(parcel: &[u8], wide: &mut [u8]) -> Result<usize, Refusal> {
    let (mut count, mut place) = ([0u64; 1], [0u64; 2]);
    done(calls::widen(parcel, wide, &mut count, &mut place))?;
    Ok(count[0] as usize)
}

/// Writes a parcel of the second edition again as one of the first, and gives the number of its bytes. An edge with an address
/// above 65,535 is refused, and the refusal says which is the first. The others stay as they are listed, whether they rise or
/// not. Nothing past the bytes is touched, and a refusal changes nothing.
///
/// ```
/// use post_guard::{narrow, Place, Refusal, MAX_PARCEL};
/// // an illegal code word, the edge from 6 to 65,535, no data
/// let mut wide = [1u32.to_le_bytes(), [255; 4], [255; 4], [1, 0, 0, 0], [6, 0, 0, 0], [255, 255, 0, 0], [0; 4]].concat();
///
/// let mut parcel = [0; MAX_PARCEL];
/// assert_eq!(narrow(&wide, &mut parcel), Ok(24));
/// assert_eq!(parcel[16..20], [6, 0, 255, 255]);
///
/// wide[20..24].copy_from_slice(&65_536u32.to_le_bytes());
/// let fault = narrow(&wide, &mut parcel).unwrap_err();
/// assert_eq!((fault.refusal, fault.place), (Refusal::EdgeTooWide, Some(Place::Edge(0))));
/// assert_eq!(fault.to_string(), "refused 19 at 0");
/// ```
#[inline]
pub fn narrow(wide: &[u8], parcel: &mut [u8]) -> Result<usize, Fault> {
    let (mut count, mut place) = ([0u64; 1], [0u64; 2]);
    let number = calls::narrow(wide, parcel, &mut count, &mut place);
    size_put(number, count, place)
}

/// The parcel of the second edition for one of the first, as [`widen`] writes it.
///
/// ```
/// use post_guard::{narrowed, widened, Program};
/// let program = Program { memory: vec![7], code_words: 1, edges: vec![5, 9, 6, 65_535] };
/// let parcel = program.to_parcel().unwrap();
///
/// let wide = widened(&parcel).unwrap();
/// assert_eq!((parcel.len(), wide.len()), (28, 36));
/// assert_eq!(narrowed(&wide), Ok(parcel));
/// ```
pub fn widened(parcel: &[u8]) -> Result<Vec<u8>, Refusal> {
    bytes_put(MAX_WIDE_PARCEL, |wide| widen(parcel, wide))
}

/// The parcel of the first edition for one of the second, as [`narrow`] writes it.
///
/// ```
/// use post_guard::{narrowed, WideProgram};
/// let mut program = WideProgram { memory: vec![7], code_words: 1, edges: vec![5, 9, 6, 65_535] };
/// assert_eq!(narrowed(&program.to_parcel().unwrap()).unwrap().len(), 28);
///
/// program.edges[3] += 1;
/// let fault = narrowed(&program.to_parcel().unwrap()).unwrap_err();
/// assert_eq!(fault.to_string(), "refused 19 at 1");
/// ```
pub fn narrowed(wide: &[u8]) -> Result<Vec<u8>, Fault> {
    bytes_put(MAX_PARCEL, |parcel| narrow(wide, parcel))
}

/// A program with its claim, as a parcel of the second edition has it: a [`Program`](crate::Program) whose edge numbers have 32
/// bits.
///
/// ```
/// use post_guard::{widened, Program, Technique, Verdict, WideProgram};
/// let parcel = Program { memory: vec![u64::MAX, 42], code_words: 1, edges: vec![] }.to_parcel().unwrap();
///
/// let wide = widened(&parcel).unwrap();
/// let program = WideProgram::from_parcel(&wide).unwrap();
/// assert_eq!(program, WideProgram { memory: vec![u64::MAX, 42], code_words: 1, edges: vec![] });
/// assert_eq!(program.check(Technique::Plain), Verdict::Accepted);
/// assert_eq!(program.to_parcel(), Ok(wide));
/// ```
#[derive(Clone, PartialEq, Eq, Hash, Debug)]
pub struct WideProgram {
    pub memory: Vec<u64>,
    /// n: how many words of the memory are code.
    pub code_words: usize,
    /// A jump's address, then a target, for each edge. A program is accepted, and written as a parcel, where the edges rise by
    /// jump address, then by target, without repeats.
    pub edges: Vec<u32>,
}

impl WideProgram {
    /// The program that a parcel of the second edition holds, with its edges as the parcel lists them.
    pub fn from_parcel(wide: &[u8]) -> Result<WideProgram, Refusal> {
        let mut memory = vec![0; 4096];
        let mut edges = vec![0; 4096];
        let counts = read_wide_parcel(wide, &mut memory, &mut edges)?;
        memory.truncate(counts.code_words + counts.data_words);
        edges.truncate(counts.edges * 2);
        Ok(WideProgram { memory, code_words: counts.code_words, edges })
    }

    /// The parcel of the second edition for the program, if its edges rise. If not, the fault says at which edge.
    pub fn to_parcel(&self) -> Result<Vec<u8>, Fault> {
        bytes_put(MAX_WIDE_PARCEL, |wide| write_wide_parcel(&self.memory, self.code_words, &self.edges, wide))
    }

    /// Puts the edges into the sequence that check and writer ask for, and takes out repeats: the graph stays the same. A number
    /// at the end that is no pair stays there.
    ///
    /// ```
    /// use post_guard::WideProgram;
    /// let mut program = WideProgram { memory: vec![7], code_words: 1, edges: vec![70_000, 9, 5, 9, 70_000, 8, 5, 9] };
    /// assert_eq!(program.to_parcel().unwrap_err().to_string(), "refused 18 at 1");
    ///
    /// program.sort_edges();
    /// assert_eq!(program.edges, [5, 9, 70_000, 8, 70_000, 9]);
    /// assert_eq!(program.to_parcel().unwrap().len(), 12 + 8 + 3 * 8);
    /// ```
    pub fn sort_edges(&mut self) {
        self.edges = rising(&self.edges);
    }

    /// The verdict on the program.
    pub fn check(&self, technique: Technique) -> Verdict {
        check_wide(technique, &self.memory, self.code_words, &self.edges)
    }
}
