//! The whiteboard's script: calls of the console's language, each with the answer that it should have. Here the plain
//! store answers them, and the page says the same as that of crates/whiteboard has to.

use crate::console::{lines, Console};

/// Calls and answers shorter than this are filled up with spaces.
const COLUMN: usize = 16;

/// What the plain store makes of a script.
#[derive(Default)]
pub struct Page {
    pub text: String,
    pub right: usize,
    pub cases: usize,
    /// The rows of calls that are not answered as the script says, or of which it says nothing.
    pub not_right: Vec<String>,
}

/// Each line is `CALL = ANSWER`, a remark or empty. `# WORDS` names a case; a remark that is indented says more.
pub fn page(script: &[u8]) -> Page {
    let mut console = Console::new();
    let mut page = Page::default();
    for line in lines(script) {
        let line = std::str::from_utf8(line).expect("a script is text");
        if line.is_empty() || line.starts_with('#') {
            page.remark(line);
        } else {
            page.call(line, &mut console);
        }
    }
    let calls = page.right + page.not_right.len();
    page.text += &format!("\n{} of {calls} answers are right, in {} cases\n", page.right, page.cases);
    page
}

impl Page {
    fn remark(&mut self, line: &str) {
        let (_, words) = line.split_once(' ').unwrap_or_default();
        self.cases += usize::from(!words.is_empty() && !words.starts_with(' '));
        self.text += &format!("{words}\n");
    }

    fn call(&mut self, line: &str, console: &mut Console) {
        let (call, should) = line.split_once(" = ").unwrap_or((line, ""));
        let was = console.answer(call).unwrap_or_default();
        let verdict = match should {
            "" => "-----",
            _ if should == was => "right",
            _ => "WRONG",
        };
        let row = format!("  {verdict}  {call:COLUMN$} should be: {should:COLUMN$} was: {was}");
        self.text += &format!("{row}\n");
        match verdict {
            "right" => self.right += 1,
            _ => self.not_right.push(row),
        }
    }
}

#[cfg(test)]
mod tests {
    use super::*;
    use crate::language::{parse, Asked};
    use crate::layout::hall_length;
    use crate::programs::inputs::NOT_MET;

    /// What the program lends, which is less than the console does.
    const HALL: usize = 4_096;

    fn stored(file: &str) -> Vec<u8> {
        std::fs::read(format!("{}/../crates/whiteboard/{file}", env!("CARGO_MANIFEST_DIR"))).unwrap()
    }

    /// Every answer that the stored script demands is the plain store's, and the stored page is of that script.
    #[test]
    fn the_stored_script() {
        let page = page(&stored("stdin"));
        assert_eq!(page.not_right, Vec::<String>::new());
        assert!(page.cases >= 27, "the rules ask for more cases than {}", page.cases);
        let script = stored("stdin");
        for opened in lines(&script).filter_map(|line| std::str::from_utf8(line).unwrap().strip_suffix(" = ok")) {
            if let Some(Asked::Open(opening)) = parse(opened) {
                assert!(hall_length(opening.sizes()) <= HALL, "{opened}");
            }
        }
        assert_eq!(page.text, String::from_utf8(stored("stdout")).unwrap());
    }

    #[test]
    fn what_is_not_right() {
        let text = "  more
one

  right  make 1 1 1       should be: ok               was: ok
  WRONG  begin            should be: begun 1 1        was: begun 1 0
  -----  commit 1         should be:                  was: closed
  -----  abort 1          should be:                  was: no 5

two
  -----  counts=counts 0 0 0 should be:                  was: what
  WRONG                   should be: ok               was: 
  WRONG  counts           should be: counts 0 0       was: counts 0 0 0
  WRONG  counts           should be: counts 0 0 00    was: counts 0 0 0
  right  counts           should be: counts 0 0 0     was: counts 0 0 0
  WRONG  newest 41        should be: None             was: none
  right  abort 1          should be: no 5             was: no 5

3 of 11 answers are right, in 2 cases
";
        let page = page(NOT_MET.as_bytes());
        assert_eq!(page.text, text);
        assert_eq!((page.right, page.not_right.len(), page.cases), (3, 8, 2));
    }
}
