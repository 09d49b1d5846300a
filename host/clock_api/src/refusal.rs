//! Refusals: docs/CODES.md has the table, to which scripts/check-docs holds the list here.
use core::fmt;

/// Why a request gets no plan: a listed number, the same for every board and release.
#[derive(Clone, Copy, PartialEq, Eq, Hash)]
pub struct Refusal(u32);

/// Every refusal by its number, and what it says. The numbers rise; one that is not here is no refusal.
pub const REFUSALS: &[(u32, &str)] = &[
    (1, "a byte or number outside its codes, or a wrong length"),
    (2, "a bank that is not 82 words"),
    (3, "system, AHB or an APB requested above 250,000,000 Hz"),
    (4, "an MCO from HSE, and no HSE stated"),
    (5, "PLL1 P unlike the system clock that needs it"),
    (6, "the source has 0 Hz"),
    (7, "a PLL output of 0 Hz"),
    (8, "a PLL's least output is below its largest / 128"),
    (9, "a PLL's largest output is 560,000,000 Hz or more"),
    (10, "the VCO's target is outside its range"),
    (11, "no reference divider M is admissible"),
    (12, "N outside 4 to 512"),
    (13, "FRACN before cutting outside 0 to 8191"),
    (14, "P's divider above 128"),
    (15, "P's divider odd where that is forbidden"),
    (16, "HSION off"),
    (17, "HSIDIV not 2"),
    (18, "AHB or an APB requested 0 Hz"),
    (19, "AHB comes to 0 Hz"),
    (20, "MCO1 from LSE"),
    (21, "an MCO from a PLL output that is not planned"),
    (22, "an MCO of 0 Hz"),
    (23, "an MCO ratio above 15"),
    (24, "CSIRDY down at its check"),
];

impl Refusal {
    pub(crate) fn of(number: u32) -> Result<(), Refusal> {
        if number == 0 {
            Ok(())
        } else {
            Err(Refusal(number))
        }
    }

    pub(crate) fn numbered(number: u32) -> Refusal {
        Refusal(number)
    }

    /// The refusal's number.
    pub fn number(self) -> u32 {
        self.0
    }

    /// What it says, in a few words.
    pub fn text(self) -> &'static str {
        REFUSALS.iter().find(|row| row.0 == self.0).map_or("not a refusal of this release", |row| row.1)
    }
}

impl fmt::Debug for Refusal {
    fn fmt(&self, f: &mut fmt::Formatter<'_>) -> fmt::Result {
        write!(f, "Refusal({}: {})", self.0, self.text())
    }
}

impl fmt::Display for Refusal {
    fn fmt(&self, f: &mut fmt::Formatter<'_>) -> fmt::Result {
        write!(f, "refused {}: {}", self.0, self.text())
    }
}
