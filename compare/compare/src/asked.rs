//! What the arguments ask for.

use crate::kinds::Kind;

#[derive(Clone, Debug)]
pub struct Asked {
    pub count: usize,
    pub seed: u64,
    pub kind: Option<String>,
    pub index: Option<usize>,
}

fn number<T: std::str::FromStr>(name: &str, given: Option<&String>) -> Result<T, String> {
    let text = given.ok_or_else(|| format!("{name} is missing"))?;
    text.parse()
        .map_err(|_| format!("{name} is not a number that fits: {text}"))
}

impl Asked {
    /// Refuses what would compare nothing: N = 0, a kind or a case that is not there.
    pub fn of(arguments: &[String], kinds: &[Kind]) -> Result<Self, String> {
        if arguments.len() > 4 {
            return Err("too many arguments".into());
        }
        let index = arguments.get(3);
        let asked = Self {
            count: number("N", arguments.first())?,
            seed: number("SEED", arguments.get(1))?,
            kind: arguments.get(2).cloned(),
            index: index.map(|_| number("INDEX", index)).transpose()?,
        };
        if asked.count == 0 {
            return Err("N is 0: nothing would be compared".into());
        }
        asked.is_there(kinds)?;
        Ok(asked)
    }

    fn is_there(&self, kinds: &[Kind]) -> Result<(), String> {
        let Some(name) = &self.kind else {
            return Ok(());
        };
        let Some(kind) = kinds.iter().find(|kind| kind.name == name) else {
            let names: Vec<_> = kinds.iter().map(|kind| kind.name).collect();
            return Err(format!("KIND is none of {}: {name}", names.join(", ")));
        };
        let cases = (kind.count)(self.count);
        match self.index {
            Some(index) if index >= cases => Err(format!(
                "INDEX {index} is past the end: {name} has {cases} cases where N is {}",
                self.count
            )),
            _ => Ok(()),
        }
    }

    pub fn wants(&self, kind: &Kind) -> bool {
        self.kind.as_deref().is_none_or(|name| name == kind.name)
    }

    /// The cases of a kind that are asked for.
    pub fn indices(&self, kind: &Kind) -> Vec<usize> {
        match self.index {
            Some(index) => vec![index],
            None => (0..(kind.count)(self.count)).collect(),
        }
    }
}
