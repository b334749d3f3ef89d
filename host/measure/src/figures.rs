//! What the programs in C measured, read back: a line for each call.

/// What one call took.
#[derive(Debug, PartialEq)]
pub struct Figures {
    pub instructions: u64,
    /// Nanoseconds, where they were taken.
    pub time: Option<u64>,
}

/// The last word of a line is its number.
fn number(line: &str) -> Result<u64, String> {
    line.rsplit(' ').next().and_then(|word| word.parse().ok()).ok_or(format!("no number: {line}"))
}

fn numbers(text: &str) -> Result<Vec<u64>, String> {
    text.lines().map(number).collect()
}

/// The instructions of each call from its first to its return. The first line is what the marks and an empty function
/// take, whose one instruction is its return.
fn counted(text: &str) -> Result<Vec<u64>, String> {
    let counts = numbers(text)?;
    let (empty, calls) = counts.split_first().ok_or("nothing was counted")?;
    Ok(calls.iter().map(|count| count - empty + 1).collect())
}

/// The figures of each call, by what `painted.c`, `counter.c` and, where times are taken, `timed.c` wrote. Each call is to
/// be refused with its number here, or accepted where that is 0: one that is refused by mistake would show little but its
/// check.
pub fn figures(refusals: &[u64], answers: &str, counts: &str, times: Option<&str>) -> Result<Vec<Figures>, String> {
    let answers = numbers(answers)?;
    if let Some(other) = answers.iter().zip(refusals).position(|(answer, refusal)| answer & 255 != *refusal) {
        return Err(format!("call {} is answered otherwise", other + 1));
    }
    let counts = counted(counts)?;
    let times = match times {
        Some(text) => numbers(text)?.into_iter().map(Some).collect(),
        None => vec![None; counts.len()],
    };
    if [answers.len(), counts.len(), times.len()] != [refusals.len(); 3] {
        return Err("a call was not measured".to_string());
    }
    Ok(counts.into_iter().zip(times).map(|(instructions, time)| Figures { instructions, time }).collect())
}

#[cfg(test)]
mod tests {
    use super::*;

    #[test]
    fn marks_are_taken_off() {
        let of = |instructions, time| Figures { instructions, time };
        let two = figures(&[0, 0], "close 8 0\nend 8 256\n", "20\n20\n29\n", None);
        assert_eq!(two, Ok(vec![of(1, None), of(10, None)]));
        assert_eq!(figures(&[0], "close 8 0\n", "20\n120\n", Some("close 7\n")), Ok(vec![of(101, Some(7))]));
    }

    #[test]
    fn what_is_answered_otherwise_or_missing_is_told() {
        let two = |refusals| figures(refusals, "close 8 0\nclose 8 2\n", "20\n20\n29\n", None);
        assert_eq!(two(&[0, 0]), Err("call 2 is answered otherwise".to_string()));
        assert_eq!(two(&[0, 2]).map(|figures| figures.len()), Ok(2));
        let missing = Err("a call was not measured".to_string());
        assert_eq!(figures(&[0], "close 8 0\n", "20\n", None), missing);
        assert_eq!(figures(&[0], "close 8 0\n", "20\n120\n", Some("")), missing);
        assert_eq!(two(&[0]), missing);
    }
}
