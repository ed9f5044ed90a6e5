//! Guards put in for the installer: bare code and its graph become plain guarded code, its edges, and a map from each old address
//! to its new one.
use crate::{calls, decode, encode, Fault, Instruction, Program};

/// The most words that code may have, with its guards.
pub const MAX_CODE: usize = 2048;

/// Puts labels and plain guards into bare code: n words without labels that leave r0, r1 and r2 alone, with the edges of its jumps
/// between bare addresses, as [`check`](crate::check) takes them. Gives n', the number of new code words.
///
/// A destination gets its label in front, a jmp becomes its guard, a bgt, jd or call gets its target mapped, every other word stays
/// as it is, and one illegal word is added at the end: n' is n, five more for each jmp, one more for each destination, and one. As
/// many new edge numbers are put as there are old ones, in the same sequence, and n entries of the map: for each old address, where
/// its label, its word or the first word of its guard is now. The new code is accepted, plain, with the same data words after it.
/// What follows a call follows it still, so where a ret went to a + 1 it goes to the entry of a + 1.
///
/// Values in registers and data are the caller's to map, and so is what a movi holds: [`Guarded`] shows how. Nothing past what is
/// put is touched, and a refusal changes nothing.
///
/// ```
/// use post_guard::{check, encode, rewrite, Instruction::*, Place, Refusal, Technique, Verdict};
///
/// // the post program as bare code: the jmp at 1 goes to 2
/// let mut bare = [Movi { rd: 5, w: 2 }, Jmp { rs: 5 }, Illegal].map(encode);
/// let (mut code, mut edges, mut map) = ([0; 10], [0; 2], [0; 3]);
/// assert_eq!(rewrite(&bare, 3, &[1, 2], &mut code, &mut edges, &mut map), Ok(10));
/// let expected = [
///     Movi { rd: 5, w: 2 }, // as it was, and so no address of the new code
///     Addi { rd: 0, rs: 5, w: 0 },
///     Ld { rd: 1, rs: 0, w: 0 },
///     Movi { rd: 2, w: 7 },
///     Bgt { rs: 1, rt: 2, w: 9 },
///     Bgt { rs: 2, rt: 1, w: 9 },
///     Jmp { rs: 0 },
///     Label { w: 7 },
///     Illegal,
///     Illegal,
/// ];
/// assert_eq!(code, expected.map(encode));
/// assert_eq!((edges, map), ([6, 7], [0, 1, 7]));
/// assert_eq!(check(Technique::Plain, &code, 10, &edges), Verdict::Accepted);
///
/// let fault = rewrite(&bare, 3, &[1, 2], &mut code[..9], &mut edges, &mut map).unwrap_err();
/// assert_eq!(fault.refusal, Refusal::PlaceTooShort);
///
/// bare[0] = encode(Movi { rd: 2, w: 2 });
/// let fault = rewrite(&bare, 3, &[1, 2], &mut code, &mut edges, &mut map).unwrap_err();
/// assert_eq!((fault.refusal, fault.place), (Refusal::LabelOrReserved, Some(Place::Address(0))));
/// ```
#[inline]
pub fn rewrite(
    memory: &[u64],
    n: usize,
    edges: &[u16],
    code: &mut [u64],
    new_edges: &mut [u16],
    map: &mut [u16],
) -> Result<usize, Fault> {
    let (mut counts, mut place) = ([0u64; 2], [0u64; 2]);
    match calls::rewrite(memory, n, edges, code, new_edges, map, &mut counts, &mut place) {
        0 => Ok(counts[0] as usize),
        number => Err(Fault::of(number, place)),
    }
}

/// A program with its guards put in, and where its words went.
///
/// A movi that holds an address holds the bare one still: nobody but the installer knows which numbers are addresses. They are
/// mapped afterwards, each word once: a movi by [`map_movi`](Guarded::map_movi), a data word or a register by
/// [`new_address`](Guarded::new_address).
///
/// ```
/// use post_guard::{encode, run, Ending, Instruction::*, Program, State, Stop, Technique, Verdict};
///
/// // examples/clipping-bare.txt
/// let code = [
///     Movi { rd: 3, w: 11 }, // 0: where the reading is, in data
///     Ld { rd: 4, rs: 3, w: 0 },
///     Movi { rd: 5, w: 4 }, // 2: the billing routine, in code
///     Jmp { rs: 5 },
///     Movi { rd: 6, w: 4094 }, // 4: the billing routine
///     Bgt { rs: 4, rt: 6, w: 10 },
///     Add { rd: 7, rs: 7, rt: 4 },
///     Movi { rd: 8, w: 12 }, // 7: where the bill is, in data
///     St { rd: 8, rs: 7, w: 0 },
///     Jd { w: 10 },
///     Illegal,
/// ];
/// let mut memory = code.map(encode).to_vec();
/// memory.extend([1200, 0]); // the reading and the bill
/// let bare = Program { memory, code_words: 11, edges: vec![3, 4] };
///
/// let mut guarded = bare.with_guards().unwrap();
/// assert_eq!(guarded.map, [0, 1, 2, 3, 9, 11, 12, 13, 14, 15, 16]);
/// assert_eq!((guarded.program.code_words, &guarded.program.edges), (18, &vec![8, 9]));
/// assert_eq!(guarded.program.check(Technique::Plain), Verdict::Accepted);
///
/// // three movi words hold addresses; the one at 4 holds the sensor's ceiling
/// assert_eq!(guarded.map_movi(0), Some(18)); // the first data word was at 11
/// assert_eq!(guarded.map_movi(2), Some(9)); // the billing routine, at its label
/// assert_eq!(guarded.map_movi(7), Some(19));
///
/// let mut program = guarded.program;
/// assert_eq!(program.check(Technique::Plain), Verdict::Accepted);
/// let ran = run(Technique::Plain, &mut State::fresh([0; 32]), &mut program.memory, 18, 100).unwrap();
/// assert_eq!(ran.ending, Ending::Stopped(Stop::Illegal));
/// assert_eq!(program.memory[18..], [1200, 1200]);
/// ```
#[derive(Clone, PartialEq, Eq, Hash, Debug)]
pub struct Guarded {
    /// The new code with the same data words after it, and the new edges.
    pub program: Program,
    /// For each address of the bare code, where its label, its word or the first word of its guard is now. It rises, and depends on
    /// the edges and on which words are a jmp, not on what a movi holds.
    pub map: Vec<u16>,
}

impl Guarded {
    /// Where an address of the bare program is now: the map's entry of a code address, and the same data word for a data address.
    /// None where the bare program has no such address.
    ///
    /// ```
    /// use post_guard::{encode, Instruction::*, Program};
    ///
    /// // a jmp by the address that the data word at 3 holds
    /// let code = [Movi { rd: 3, w: 3 }, Ld { rd: 5, rs: 3, w: 0 }, Jmp { rs: 5 }].map(encode);
    /// let bare = Program { memory: [&code[..], &[1]].concat(), code_words: 3, edges: vec![2, 1] };
    /// let mut guarded = bare.with_guards().unwrap();
    /// assert_eq!(guarded.map, [0, 1, 3]);
    ///
    /// let new = |old| guarded.new_address(old);
    /// assert_eq!([new(0), new(1), new(2), new(3), new(4)], [Some(0), Some(1), Some(3), Some(10), None]);
    ///
    /// // what the data word and the movi hold is mapped
    /// guarded.program.memory[10] = new(1).unwrap().into();
    /// assert_eq!(guarded.map_movi(0), Some(10));
    /// ```
    pub fn new_address(&self, old: u64) -> Option<u16> {
        let old = usize::try_from(old).ok()?;
        if let Some(&new) = self.map.get(old) {
            return Some(new);
        }
        let data_words = self.program.memory.len().checked_sub(self.program.code_words)?;
        let word = old - self.map.len();
        if word < data_words {
            u16::try_from(self.program.code_words + word).ok()
        } else {
            None
        }
    }

    /// Makes the movi that was at this address of the bare code, and that holds an address of the bare program, hold the new
    /// address, which it gives. None, and nothing changes, where no movi was there, or where it holds no address of the bare
    /// program.
    ///
    /// Call it once for each such movi: a second time, it would take the new address for a bare one.
    ///
    /// ```
    /// use post_guard::{decode, encode, Instruction::*, Program};
    /// let code = [Jmp { rs: 5 }, Movi { rd: 5, w: 1 }, Movi { rd: 5, w: 3 }].map(encode);
    /// let bare = Program { memory: code.to_vec(), code_words: 3, edges: vec![0, 1] };
    /// let mut guarded = bare.with_guards().unwrap();
    /// assert_eq!(guarded.map, [0, 6, 8]);
    ///
    /// // 1 is a destination: its label is at 6, and the movi follows it
    /// assert_eq!(guarded.map_movi(1), Some(6));
    /// assert_eq!(decode(guarded.program.memory[7]), Movi { rd: 5, w: 6 });
    ///
    /// assert_eq!(guarded.map_movi(0), None); // a jmp
    /// assert_eq!(guarded.map_movi(2), None); // 3 is n, and there is no data
    /// ```
    pub fn map_movi(&mut self, old: usize) -> Option<u16> {
        let label = usize::from(*self.map.get(old)?);
        // bare code has no labels, so a label here is the one in front of a destination
        let is_label = matches!(decode(*self.program.memory.get(label)?), Instruction::Label { .. });
        let at = if is_label { label + 1 } else { label };
        let Instruction::Movi { rd, w } = decode(*self.program.memory.get(at)?) else { return None };
        let new = self.new_address(w.into())?;
        self.program.memory[at] = encode(Instruction::Movi { rd, w: new.into() });
        Some(new)
    }
}

impl Program {
    /// The program with labels and plain guards put into its code, which is bare, and the map from each old address to its new one:
    /// [`rewrite`] says what becomes of each word, and [`Guarded`] how the map is used. The data words stay as they are. What comes
    /// out is accepted, plain.
    ///
    /// ```
    /// use post_guard::{encode, Instruction::*, Program, Technique, Verdict};
    ///
    /// // two words that jump to each other: each is a destination
    /// let mut bare = Program { memory: [Jmp { rs: 5 }; 2].map(encode).to_vec(), code_words: 2, edges: vec![0, 1, 1, 0] };
    /// let guarded = bare.with_guards().unwrap();
    /// assert_eq!((guarded.map, guarded.program.code_words), (vec![0, 7], 15)); // 2 + 2 * 5 + 2 + 1
    /// assert_eq!(guarded.program.edges, [6, 7, 13, 0]);
    /// assert_eq!(guarded.program.check(Technique::Plain), Verdict::Accepted);
    ///
    /// bare.memory[1] = encode(Jd { w: 2 });
    /// bare.edges.truncate(2);
    /// let fault = bare.with_guards().unwrap_err();
    /// assert_eq!(fault.to_string(), "refused 21 at 1");
    /// assert_eq!(fault.refusal.to_string(), "a bgt, jd or call leads out of the bare code (21)");
    /// ```
    pub fn with_guards(&self) -> Result<Guarded, Fault> {
        // places as long as the result, or as the longest that there may be
        let mut memory = vec![0; MAX_CODE];
        let mut edges = vec![0; self.edges.len().min(4096)];
        let mut map = vec![0; self.code_words.min(MAX_CODE)];
        let code_words = rewrite(&self.memory, self.code_words, &self.edges, &mut memory, &mut edges, &mut map)?;
        memory.truncate(code_words);
        memory.extend_from_slice(&self.memory[self.code_words..]);
        Ok(Guarded { program: Program { memory, code_words, edges }, map })
    }
}
