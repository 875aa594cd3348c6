//! The program's flags.

use std::time::{Duration, SystemTime, UNIX_EPOCH};

pub const USAGE: &str = "usage: compare [--long] [--seed N] [--calls N | --seconds S]
  --calls N    one pass of N calls (3000000 if nothing else is said)
  --seconds S  passes of 3000000 calls, each with the next seed, until S seconds are over
  --seed N     the first pass's seed
  --long       3600 seconds, and a seed that is another one each time, if nothing else is said";

pub const CALLS: u64 = 3_000_000;
const LONG: Duration = Duration::from_secs(3600);
const SEED: u64 = 1;

pub enum Limit {
    Calls(u64),
    Time(Duration),
}

pub struct Flags {
    pub seed: u64,
    pub limit: Limit,
}

pub fn read(mut arguments: impl Iterator<Item = String>) -> Result<Flags, String> {
    let (mut long, mut seed, mut limit) = (false, None, None);
    while let Some(flag) = arguments.next() {
        let mut number = || -> Result<u64, String> {
            let value = arguments.next();
            let value = value.ok_or_else(|| format!("{flag} needs a number after it"))?;
            let parsed = value.parse();
            parsed.map_err(|_| format!("{flag} {value}: not a number from 0 to {}", u64::MAX))
        };
        match flag.as_str() {
            "--long" => long = true,
            "--seed" => seed = Some(number()?),
            "--calls" | "--seconds" if limit.is_some() => {
                return Err("--calls and --seconds: give one of them, once".to_string())
            }
            "--calls" => limit = Some(Limit::Calls(number()?)),
            "--seconds" => limit = Some(Limit::Time(Duration::from_secs(number()?))),
            _ => return Err(format!("{flag}: no such flag")),
        }
    }
    let usual = if long { Limit::Time(LONG) } else { Limit::Calls(CALLS) };
    Ok(Flags {
        seed: seed.unwrap_or_else(|| if long { seed_of_now() } else { SEED }),
        limit: limit.unwrap_or(usual),
    })
}

/// Seconds, so that the seeds of one run's passes are short numbers.
fn seed_of_now() -> u64 {
    let since = SystemTime::now().duration_since(UNIX_EPOCH);
    since.map_or(SEED, |time| time.as_secs() * 1000)
}
