//! Holds the page docs/REFUSALS.md taken apart: what each refusal means, and what to do.

use lapurmihi::Refusal;
use std::fmt;

const PAGE: &str = include_str!("../../docs/REFUSALS.md");

/// The page's sections for those who see a refusal.
pub const CONTAINER: &str = "A container is refused";
pub const CALL: &str = "A call is refused";

/// A row of one of these sections.
#[derive(Debug, PartialEq)]
pub struct Advice {
    pub means: String,
    pub what_to_do: String,
}

impl fmt::Display for Advice {
    fn fmt(&self, f: &mut fmt::Formatter<'_>) -> fmt::Result {
        write!(f, "{}; {}", self.means, self.what_to_do)
    }
}

/// What a refusal means for who has a container, or else for who makes a program.
pub fn advice(refusal: Refusal) -> Option<Advice> {
    row(CONTAINER, refusal).or_else(|| row(CALL, refusal))
}

/// The row of a refusal in a section.
pub fn row(section: &str, refusal: Refusal) -> Option<Advice> {
    let mut sections = PAGE.split("\n## ");
    let text = sections.find(|text| text.lines().next() == Some(section))?;
    let [means, what_to_do] = text.lines().find_map(|line| cells(line, refusal))?;
    Some(Advice { means, what_to_do })
}

/// The two cells that follow a refusal's number in a line of a table.
fn cells(line: &str, refusal: Refusal) -> Option<[String; 2]> {
    let line = line.strip_prefix(&format!("| {} | ", refusal.number()))?.strip_suffix(" |")?;
    let cells: Vec<String> = line.split(" | ").map(plain).collect();
    cells.try_into().ok()
}

/// Text without the marks of Markdown: the backticks, the stars and the targets of links.
fn plain(text: &str) -> String {
    let mut rest = text.replace(['`', '*'], "");
    while let Some((before, link)) = rest.split_once('[') {
        let Some((words, behind)) = link.split_once("](") else { break };
        let Some((_, behind)) = behind.split_once(')') else { break };
        rest = format!("{before}{words}{behind}");
    }
    rest
}

#[cfg(test)]
mod tests {
    use super::*;

    #[test]
    fn every_refusal_has_its_rows() {
        let first = PAGE.split("\n## ").next().unwrap();
        for &refusal in Refusal::ALL {
            let own = first.lines().find_map(|line| cells(line, refusal)).expect("a first row");
            assert_eq!(own, [refusal.name().to_string(), refusal.sentence().to_string()]);
            let advice = advice(refusal).unwrap_or_else(|| panic!("{refusal} has no advice"));
            for text in [advice.means, advice.what_to_do] {
                assert!(!text.is_empty() && !text.contains(['`', '[', ']', '|', '*']), "{text}");
            }
        }
    }

    #[test]
    fn a_number_in_both_sections_has_two_rows() {
        let container = row(CONTAINER, Refusal::NoOrder).unwrap();
        let call = row(CALL, Refusal::NoOrder).unwrap();
        assert_ne!(container, call);
        assert_eq!(advice(Refusal::NoOrder), Some(container));
        assert_eq!(row(CONTAINER, Refusal::NoTask), None);
        assert_eq!(advice(Refusal::NoTask), row(CALL, Refusal::NoTask));
    }

    #[test]
    fn marks_are_taken_out() {
        let text = plain("lend what `lapur_needs` **says** ([USING.md](USING.md), [a](b)) [x");
        assert_eq!(text, "lend what lapur_needs says (USING.md, a) [x");
    }
}
