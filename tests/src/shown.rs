//! What a document shows: commands, and lines that they print. A command stands in a block of code behind `$ `,
//! the lines below it.

/// A command as a document shows it, and lines of what it prints.
#[derive(Clone, Debug, PartialEq, Eq)]
pub struct Shown {
    pub command: String,
    pub lines: Vec<String>,
}

/// How a line begins that is a command, and the end of a block of code.
const COMMAND: &str = "$ ";
const FENCE: &str = "```";

/// The commands that a document shows. Lines of a block of code before its first command are passed over.
pub fn shown(document: &str) -> Vec<Shown> {
    let mut found: Vec<Shown> = Vec::new();
    let mut inside = false;
    let mut begun = false;
    for line in document.lines() {
        if line.starts_with(FENCE) {
            (inside, begun) = (!inside, false);
        } else if let Some(command) = line.strip_prefix(COMMAND).filter(|_| inside) {
            found.push(Shown { command: command.to_string(), lines: Vec::new() });
            begun = true;
        } else if let Some(last) = found.last_mut().filter(|_| begun) {
            last.lines.push(line.to_string());
        }
    }
    found
}

#[cfg(test)]
mod tests {
    use super::*;

    #[test]
    fn commands_and_their_lines() {
        let document = "# Page\n$ not this\n```\n$ one a\n1\n2\n$ two\n```\nwords\n```json\n3\n```\n```\n$ three\n4\n```\n";
        let found: Vec<(String, usize)> =
            shown(document).into_iter().map(|one| (one.command, one.lines.len())).collect();
        let expected = [("one a", 2), ("two", 0), ("three", 1)];
        assert_eq!(found, expected.map(|(command, lines)| (command.to_string(), lines)));
    }
}
