//! Command-line options of the form `--name NUMBER`.

/// The values after the named options, in the names' order; an option not given keeps its default.
pub fn numbers(arguments: &[String], known: &[(&str, u64)]) -> Result<Vec<u64>, String> {
    let mut values: Vec<u64> = known.iter().map(|(_, default)| *default).collect();
    for pair in arguments.chunks(2) {
        let place = known.iter().position(|(name, _)| *name == pair[0]);
        let place = place.ok_or_else(|| format!("unknown option {}", pair[0]))?;
        let value = pair.get(1).and_then(|text| text.parse().ok());
        values[place] = value.ok_or_else(|| format!("{} needs a number", pair[0]))?;
    }
    Ok(values)
}
