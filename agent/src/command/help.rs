//! The texts of `--help`, from `help.txt`: the whole first, then each task's below a line with its word.

use super::words::Task;

const TEXTS: &str = include_str!("help.txt");
/// Stands before a task's word.
const MARK: &str = "==== ";

/// Of the command as a whole, or of one task.
pub fn text(task: Option<Task>) -> &'static str {
    let mut parts = TEXTS.split(MARK);
    let whole = parts.next().unwrap_or_default();
    let mut of =
        |task: Task| parts.find_map(|part| part.strip_prefix(task.word())?.strip_prefix('\n'));
    task.map_or(whole, |task| of(task).unwrap_or(whole))
}

#[cfg(test)]
mod tests {
    use super::*;

    #[test]
    fn every_task_is_told() {
        for task in Task::ALL {
            let own = text(Some(task));
            assert!(own.starts_with(&format!("tzb {} ", task.word())), "{own}");
            assert!(own.contains("Exit status"), "{own}");
            assert!(text(None).contains(&format!("\n  tzb {} ", task.word())));
        }
    }

    #[test]
    fn fits_a_terminal() {
        let texts = Task::ALL.into_iter().map(Some).chain([None]).map(text);
        for line in texts.flat_map(str::lines) {
            assert!(line.chars().count() <= 105, "{line}");
        }
    }
}
