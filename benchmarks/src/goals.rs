//! The goals of each line, out of goals.txt.

const TEXT: &str = include_str!("../goals.txt");

/// The most instructions, and the most of the Rust's in its default build and in its best one.
pub struct Goals([Option<f64>; 3]);

/// Those of the line of this name.
pub fn of(name: &str) -> Goals {
    let rows = TEXT.lines().filter(|row| !row.starts_with('#'));
    let cells = |row: &'static str| row.split('|').map(str::trim).collect::<Vec<_>>();
    let row = rows.map(cells).find(|cells| cells[0] == name);
    let row = row.unwrap_or_else(|| panic!("goals.txt has no line {name}"));
    let goal = |cell: &str| (cell != "-").then(|| cell.parse().unwrap());
    Goals([goal(row[1]), goal(row[2]), goal(row[3])])
}

impl Goals {
    /// The goals as text, and of each whether the number counted is within it.
    pub fn compared(&self, counted: [f64; 3]) -> (String, String) {
        let pairs = self.0.iter().zip(counted).filter_map(|(goal, count)| goal.map(|goal| (goal, count)));
        let (goals, met): (Vec<_>, Vec<_>) =
            pairs.map(|(goal, count)| (goal.to_string(), if count <= goal { "yes" } else { "no" })).unzip();
        (goals.join(", "), if met.contains(&"no") { met.join(", ") } else { "yes".to_string() })
    }
}
