//! The frames in which jobs are handed from one program to another.
//!
//! A job is a header line of eight decimal numbers, `BUDGET PAIRS COMPOUNDS GOALS BUFFER SCRATCH NEED LENGTH`, ended
//! by LF, then so many bytes of text, then one LF. Labels are not framed.

use reference::Figures;

/// One job in its frame.
pub fn framed(text: &[u8], figures: &Figures) -> Vec<u8> {
    let Figures { budget, pairs, compounds, goals, buffer, scratch, need } = *figures;
    let length = text.len();
    let mut frame = format!("{budget} {pairs} {compounds} {goals} {buffer} {scratch} {need} {length}\n").into_bytes();
    frame.extend_from_slice(text);
    frame.push(b'\n');
    frame
}

/// The jobs of frames one behind the other, or what is wrong with them.
pub fn unframed(mut frames: &[u8]) -> Result<Vec<(Vec<u8>, Figures)>, String> {
    let mut jobs = Vec::new();
    while !frames.is_empty() {
        let end = frames.iter().position(|byte| *byte == b'\n').ok_or("a header line has no end")?;
        let header = std::str::from_utf8(&frames[..end]).map_err(|error| error.to_string())?;
        let numbers: Vec<u64> = header
            .split(' ')
            .map(str::parse)
            .collect::<Result<_, _>>()
            .map_err(|error| format!("{header}: {error}"))?;
        let &[budget, pairs, compounds, goals, buffer, scratch, need, length] = numbers.as_slice() else {
            return Err(format!("{header}: eight numbers are needed"));
        };
        let rest = &frames[end + 1..];
        let length = length as usize;
        if rest.get(length) != Some(&b'\n') {
            return Err(format!("{header}: the text is not ended by LF"));
        }
        jobs.push((rest[..length].to_vec(), Figures { budget, pairs, compounds, goals, buffer, scratch, need }));
        frames = &rest[length + 1..];
    }
    Ok(jobs)
}
