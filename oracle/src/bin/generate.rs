//! `generate KIND SEED COUNT DIR`: writes COUNT listings as JSON files KIND-SEED-NNNNNN.json into DIR, made if missing.

use std::error::Error;
use std::path::Path;

use oracle::generate::{listing, Kind};
use oracle::json;

fn main() -> Result<(), Box<dyn Error>> {
    let args: Vec<String> = std::env::args().skip(1).collect();
    let [kind_name, seed, count, dir] = args.as_slice() else { return Err("usage: generate KIND SEED COUNT DIR".into()) };
    let (kind, seed, count): (Kind, u64, u64) = (kind_name.parse()?, seed.parse()?, count.parse()?);
    std::fs::create_dir_all(dir)?;
    for index in 0..count {
        let file = Path::new(dir).join(format!("{kind_name}-{seed}-{index:06}.json"));
        std::fs::write(file, json::write(&listing(kind, seed, index)))?;
    }
    Ok(())
}
