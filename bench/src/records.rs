//! Records: a line each, fields parted by tabs: kind, name, the seven fields of the shape, and a value for each job.
use crate::jobs::{Family, Holds, Shape};
use std::collections::HashMap;

/// What a record is about: its kind (`time` in nanoseconds, `ratio` of times, the same ratio by the place of the code, `count` of
/// instructions, `fact`), its name and its shape.
type Key = (String, String, Shape);

/// The kind of a ratio of times in this place of the code.
pub fn placed(placement: &str) -> String {
    format!("ratio in place {placement}")
}

pub fn write(kind: &str, name: &str, shape: Shape, values: &[f64]) {
    let values: Vec<String> = values.iter().map(|value| value.to_string()).collect();
    println!(
        "{kind}\t{name}\t{}\t{}\t{}\t{}\t{}\t{}\t{}\t{}",
        shape.family.name(),
        shape.tasks,
        shape.processors,
        shape.fastest,
        shape.startup,
        shape.holds.name(),
        shape.machines,
        values.join(" ")
    );
}

pub struct Records(HashMap<Key, Vec<f64>>);

impl Records {
    /// Reads the files. Times and ratios occur for each placement and round: each job's least time counts, ratios are gathered.
    pub fn read(files: &[String]) -> Records {
        let mut records: HashMap<Key, Vec<f64>> = HashMap::new();
        for file in files {
            let text = std::fs::read_to_string(file).expect("a file of records");
            for line in text.lines() {
                let (key, values) = parse(line).unwrap_or_else(|| panic!("no record: {line}"));
                if key.0.starts_with("ratio") {
                    records.entry(key).or_default().extend(values);
                    continue;
                }
                let least = records.entry(key).or_insert_with(|| values.clone());
                for (slot, value) in least.iter_mut().zip(values) {
                    *slot = value.min(*slot);
                }
            }
        }
        Records(records)
    }

    pub fn find(&self, kind: &str, name: &str, shape: Shape) -> Option<&Vec<f64>> {
        self.0.get(&(kind.to_string(), name.to_string(), shape))
    }

    pub fn values(&self, kind: &str, name: &str, shape: Shape) -> &[f64] {
        self.find(kind, name, shape).unwrap_or_else(|| panic!("no record: {kind} {name} {shape:?}"))
    }

    /// The mean over the jobs.
    pub fn get(&self, kind: &str, name: &str, shape: Shape) -> f64 {
        let values = self.values(kind, name, shape);
        values.iter().sum::<f64>() / values.len() as f64
    }

    /// The median over placements and rounds.
    pub fn median(&self, kind: &str, name: &str, shape: Shape) -> f64 {
        let mut values = self.values(kind, name, shape).to_vec();
        values.sort_by(f64::total_cmp);
        let half = values.len() / 2;
        match values.len() % 2 {
            0 => (values[half - 1] + values[half]) / 2.0,
            _ => values[half],
        }
    }
}

fn parse(line: &str) -> Option<(Key, Vec<f64>)> {
    let fields: Vec<&str> = line.split('\t').collect();
    let [kind, name, family, tasks, processors, fastest, startup, holds, machines, values] = fields[..] else {
        return None;
    };
    let shape = Shape {
        family: Family::named(family)?,
        tasks: tasks.parse().ok()?,
        processors: processors.parse().ok()?,
        fastest: fastest.parse().ok()?,
        startup: startup.parse().ok()?,
        holds: Holds::named(holds)?,
        machines: machines.parse().ok()?,
    };
    let values = values.split(' ').map(|value| value.parse().ok()).collect::<Option<Vec<f64>>>()?;
    Some(((kind.to_string(), name.to_string(), shape), values))
}
