// Markdown, ready to be put into docs/BENCHMARKS.md.

// A number with commas.
pub fn number(n: u64) -> String {
    let digits = n.to_string();
    let mut text = String::new();
    for (i, digit) in digits.chars().enumerate() {
        if i > 0 && (digits.len() - i) % 3 == 0 {
            text.push(',');
        }
        text.push(digit);
    }
    text
}

pub fn ratio(r: f64) -> String {
    format!("{r:.2}")
}

pub fn row<S: AsRef<str>>(cells: &[S]) {
    let cells: Vec<&str> = cells.iter().map(AsRef::as_ref).collect();
    println!("| {} |", cells.join(" | "));
}

pub fn head<S: AsRef<str>>(cells: &[S]) {
    row(cells);
    println!("|{}", "---|".repeat(cells.len()));
}
