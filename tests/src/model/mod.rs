//! An independent judge, written from the text of document 01.

pub mod limits;
pub mod list;
pub mod plan;
pub mod sheet;

#[cfg(test)]
mod tests;

/// The judge's number and detail.
pub fn judge(sheet: &[u8], list: &[u8]) -> (u8, usize) {
    let sheet = match sheet::read(sheet) {
        Ok(sheet) => sheet,
        Err(number) => return (number, 0),
    };
    let Some(instances) = list::read(&sheet, list) else {
        return (40, 0);
    };
    if plan::is_plan(&sheet, &instances) {
        (0, 0)
    } else {
        (41, 0)
    }
}
