//! What is recorded of a symbol.

use crate::extracted::itanium_demangle::Demangler;

/// Returns the record of the last symbol, in the form of a line with this number of fields. Two fields have no counts,
/// three have `entered` alone, and more have all: `most_saved`, and each component that is left. If the symbol has no
/// result, the symbol is in the place of the result, as the filter writes it.
pub fn record(asked: &Demangler, symbol: &str, fields: usize) -> String {
    let answer = asked.text().unwrap_or(symbol);
    let mut record = format!("{symbol}\t{answer}");
    if fields > 2 {
        record += &format!("\t{}", asked.entered());
    }
    if fields > 3 {
        record += &format!("\t{}", asked.most_saved());
        for component in (0..asked.most_saved()).map_while(|i| asked.component(i)) {
            record += "\t";
            record += &String::from_utf8_lossy(component);
        }
    }
    record
}
