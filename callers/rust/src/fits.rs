//! Which lines belong to which status, by the table of docs/commands.md: so no other library's status is taken for a verdict.

/// The functions of the library.
#[derive(Clone, Copy, Debug)]
pub(crate) enum Function {
    Check,
    Find,
    Judge,
    Refute,
    Verify,
}

impl Function {
    /// What the first line with this status may begin with. "": there may be no line.
    fn beginnings(self, status: u32) -> &'static [&'static str] {
        use Function::{Check, Find, Judge, Refute, Verify};
        match (self, status) {
            (Check | Judge | Verify, 0) => &["yes: "],
            (Find, 0) => &["{:object ", ""],
            (Check, 1) => &["no: "],
            (Judge | Verify, 1) => &["; object "],
            (Refute, 1) => &["not linearizable: object ", "object "],
            (Check, 2) => &["malformed history: ", "malformed certificates: "],
            (Find | Judge | Verify, 2) => &["malformed history: "],
            (Refute, 2) => &["malformed history: ", "malformed reasons: "],
            (Check, 3) => &["out of memory\n"],
            (Find, 3) => &["{:object ", "; object ", ""],
            (Judge | Verify, 3) => &["; object ", "malformed evidence: ", "out of memory\n"],
            (Refute, 3) => &["object ", "out of memory\n", ""],
            _ => &[],
        }
    }

    /// Whether only a no has this line; of `find`, whether no yes has it.
    fn is_of_a_no(self, line: &[u8]) -> bool {
        match self {
            Function::Check => line.starts_with(b"no: "),
            Function::Find => line.windows(9).all(|it| it != b", :order ") && !line.is_empty(),
            Function::Judge | Function::Verify => line.starts_with(b"; object ") && line.ends_with(b": impossible"),
            Function::Refute => line.starts_with(b"not linearizable: object "),
        }
    }

    /// Whether a yes may have this line: the counts of the history, or of a kind.
    fn is_of_a_yes(line: &[u8]) -> bool {
        let (begins, ends) = (|it: &[u8]| line.starts_with(it), |it: &[u8]| line.ends_with(it));
        line.is_empty() || begins(b"yes: ") && ends(b" objects") || !begins(b";") && ends(b" operations")
    }

    /// Whether these are the lines of an answer with this status: the first of `needed` bytes, as many as there was room for.
    pub(crate) fn fits(self, status: u32, lines: &[u8], needed: usize) -> bool {
        let begins = |with: &&str| {
            let shown = lines.len().min(with.len());
            needed >= with.len() && lines[..shown] == with.as_bytes()[..shown] && (!with.is_empty() || needed == 0)
        };
        let is_cut = lines.len() < needed;
        let is_ended = lines.last().map_or(true, |byte| *byte == b'\n');
        let has_no = lines.split(|byte| *byte == b'\n').any(|line| self.is_of_a_no(line));
        let mut all = lines.split(|byte| *byte == b'\n');
        let says_so = match self {
            Function::Find => status != 0 || !has_no,
            _ => has_no == (status == 1) && (status != 0 || all.all(Function::is_of_a_yes)),
        };
        self.beginnings(status).iter().any(begins) && (is_cut || is_ended && says_so)
    }
}
