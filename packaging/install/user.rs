// SPDX-License-Identifier: LicenseRef-Wengeludo
use wengeludo_balance::{Offices, Plant, Refusal};

fn main() -> Result<(), Refusal> {
    let file = Plant::new(1).metered(0, 1, 10, 100).metered(1, 0, 10, 103).file()?;
    print!("{}", Offices::default().draw(0, &file)?);
    Ok(())
}
