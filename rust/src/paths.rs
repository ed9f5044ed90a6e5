//! Shortest paths for the manager: how a routine can be reached, or that nothing leads to it.
use crate::{calls, Fault, Program, Technique, MAX_CODE};

/// Checks a program, as [`check`](crate::check) does, and puts a shortest path from address 0 to the address at the front of the
/// place that is lent. Gives how many addresses it has, or None where no path leads to the address.
///
/// [`shortest_path`] says what a path is, and what its answers promise. A place of n or [`MAX_CODE`] numbers is always long enough.
/// Nothing past the path is touched; where there is none, and where the call is refused, nothing is changed.
///
/// ```
/// use post_guard::{encode, shortest_path_into, Instruction::*, Refusal, Technique};
///
/// let code = [Jd { w: 2 }, Illegal, Call { w: 3 }, Illegal].map(encode);
/// let mut path = [9; 4];
/// assert_eq!(shortest_path_into(Technique::Plain, &code, 4, &[], 3, &mut path), Ok(Some(3)));
/// assert_eq!(path, [0, 2, 3, 9]);
///
/// let fault = shortest_path_into(Technique::Plain, &code, 4, &[], 3, &mut path[..2]).unwrap_err();
/// assert_eq!(fault.refusal, Refusal::PlaceTooShort);
/// // no path leads to 1, and this takes no room
/// assert_eq!(shortest_path_into(Technique::Plain, &code, 4, &[], 1, &mut []), Ok(None));
/// ```
#[inline]
pub fn shortest_path_into(
    technique: Technique,
    memory: &[u64],
    n: usize,
    edges: &[u16],
    address: u64,
    path: &mut [u16],
) -> Result<Option<usize>, Fault> {
    let (mut count, mut place) = ([0u64; 1], [0u64; 2]);
    match calls::shortest_path(technique.number(), memory, n, edges, address, path, &mut count, &mut place) {
        0 => Ok(Some(count[0] as usize)),
        258 => Ok(None),
        number => Err(Fault::of(number, place)),
    }
}

/// Checks a program, as [`check`](crate::check) does, and gives a shortest path from address 0 to the address: the addresses from 0
/// to the one asked for, or None where no path leads there.
///
/// A path goes from each address to one of its successors in the claimed graph. Of all paths to the address the one with the fewest
/// steps is given; among equals, the one that has the lower address where they first part. The path to 0 is 0 alone. An address
/// outside code is refused with [`Refusal::OutsideCode`](crate::Refusal::OutsideCode), after all that a check refuses.
///
/// `Ok(None)` is a promise about runs. It is given exactly where no path exists, and it is proved that no run of the program that
/// is started at address 0 then arrives at the address, whatever the bus writes and whenever.
///
/// A path promises less. It ignores the call stack, and takes a ret to the word after any call, while in a run each ret comes home
/// to its own caller. So nothing is promised about a run that follows the path: there may be none that does.
///
/// ```
/// use post_guard::{encode, shortest_path, Instruction::*, Refusal, Technique};
///
/// let code = [
///     Bgt { rs: 4, rt: 5, w: 3 },
///     Addi { rd: 6, rs: 6, w: 1 },
///     Jd { w: 5 },
///     Addi { rd: 6, rs: 6, w: 2 },
///     Jd { w: 5 },
///     Call { w: 9 }, // 5: the first call of the routine
///     Call { w: 9 }, // 6: the second
///     Illegal,
///     Jd { w: 5 }, // 8: nothing leads here
///     Ret,         // 9: the routine
///     Illegal,
/// ]
/// .map(encode);
/// let path_to = |address| shortest_path(Technique::Plain, &code, 11, &[], address);
///
/// // the ways by 1 and by 3 have as many steps, and 1 is the lower address
/// assert_eq!(path_to(9), Ok(Some(vec![0, 1, 2, 5, 9])));
/// // to the word after the second call by the first alone: no run follows this
/// assert_eq!(path_to(7), Ok(Some(vec![0, 1, 2, 5, 9, 7])));
/// assert_eq!(path_to(8), Ok(None));
/// assert_eq!(path_to(11).unwrap_err().refusal, Refusal::OutsideCode);
/// ```
pub fn shortest_path(
    technique: Technique,
    memory: &[u64],
    n: usize,
    edges: &[u16],
    address: u64,
) -> Result<Option<Vec<u16>>, Fault> {
    // a shortest path passes no address twice
    let mut path = vec![0; n.min(MAX_CODE)];
    let count = shortest_path_into(technique, memory, n, edges, address, &mut path)?;
    Ok(count.map(|count| {
        path.truncate(count);
        path
    }))
}

impl Program {
    /// A shortest path from address 0 to the address, or None where no path leads there: [`shortest_path`] says what both promise.
    ///
    /// ```
    /// use post_guard::{encode, Instruction::*, Program, Refusal, Technique};
    ///
    /// let program = Program { memory: [Jd { w: 2 }, Illegal, Illegal].map(encode).to_vec(), code_words: 3, edges: Vec::new() };
    /// assert_eq!(program.shortest_path(Technique::Plain, 2), Ok(Some(vec![0, 2])));
    /// assert_eq!(program.shortest_path(Technique::Plain, 0), Ok(Some(vec![0])));
    /// assert_eq!(program.shortest_path(Technique::Plain, 1), Ok(None));
    ///
    /// let fault = program.shortest_path(Technique::Plain, 3).unwrap_err();
    /// assert_eq!(fault.to_string(), "refused 23");
    /// assert_eq!(fault.refusal.to_string(), "the address that a path is asked for is outside code (23)");
    /// ```
    pub fn shortest_path(&self, technique: Technique, address: u64) -> Result<Option<Vec<u16>>, Fault> {
        shortest_path(technique, &self.memory, self.code_words, &self.edges, address)
    }
}
