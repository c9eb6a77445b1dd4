//! Texts besides the jobs.

/// Tokens at their bounds, each alone and with something directly before or behind it.
pub fn corners() -> Vec<String> {
    let mut tokens: Vec<String> = Vec::new();
    for length in [1, 2, 30, 31, 32, 33, 64] {
        for first in ["a", "A", "_", "z", "Z"] {
            for other in ["a", "Z", "_", "9"] {
                let run = format!("{first}{}", other.repeat(length - 1));
                tokens.extend([format!("{run}?"), format!("{run}?-"), run]);
            }
        }
    }
    // Around the largest integers: each digit one less and one more, and the numbers beside them; leading zeros and letters behind.
    let largest = b"2147483647";
    for place in 0..largest.len() {
        for change in [-1, 0, 1, 2] {
            let mut digits = largest.to_vec();
            digits[place] = (digits[place] as i8 + change).clamp(b'0' as i8, b'9' as i8) as u8;
            tokens.push(String::from_utf8(digits).unwrap());
        }
    }
    for number in [
        "0",
        "00",
        "01",
        "7",
        "10",
        "999999999",
        "1000000000",
        "1999999999",
        "2099999999",
        "3000000000",
        "9999999999",
        "10000000000",
        "21474836470",
    ] {
        tokens.push(number.to_string());
    }
    let numbers: Vec<String> = tokens.iter().filter(|token| token.as_bytes()[0].is_ascii_digit()).cloned().collect();
    for number in numbers {
        tokens.extend([
            format!("-{number}"),
            format!("--{number}"),
            format!("{number}a"),
            format!("{number}_"),
            format!("{number}-{number}"),
        ]);
    }
    for sign in [
        "-", "--", ":", ":=", "::-", "?", "??-", "X??", "X?-", "X?-1", "==", "=", "===", "====", "= =", "X?==Y?",
        "a==[]", "==(", "'a'", "\"a\"", "+", "\u{e9}", "\u{c}", "a\rb", "[]", "[ ]", "% a % b", "a%b", "X%?", ":%-",
    ] {
        tokens.push(sign.to_string());
    }
    let around = tokens
        .iter()
        .flat_map(|token| {
            [format!("f({token},{token}).{token}"), format!("[{token}|{token}]:-{token}?-{token} {token}%{token}")]
        })
        .collect::<Vec<_>>();
    tokens.extend(around);
    tokens
}

/// Every text of at most so many bytes out of one for each thing that the token rules tell apart.
pub fn short(longest: usize, each: &mut dyn FnMut(&[u8]) -> Result<(), String>) -> Result<(), String> {
    fn longer(
        text: &mut Vec<u8>,
        left: usize,
        each: &mut dyn FnMut(&[u8]) -> Result<(), String>,
    ) -> Result<(), String> {
        each(text)?;
        if left > 0 {
            for byte in b"azAZ_019-?:([])|,.% \t\r\n=\xe9" {
                text.push(*byte);
                longer(text, left - 1, each)?;
                text.pop();
            }
        }
        Ok(())
    }
    longer(&mut Vec::new(), longest, each)
}
