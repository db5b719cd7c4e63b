// A verdict, to be printed.
use std::fmt;
use units::Verdict;

pub struct VerdictText(pub Verdict);

impl fmt::Display for VerdictText {
    fn fmt(&self, f: &mut fmt::Formatter<'_>) -> fmt::Result {
        f.write_str(match self.0 {
            Verdict::Yes => "yes",
            Verdict::Torn(_) => "no torn",
            Verdict::Lost(_) => "no lost",
            Verdict::WrongRead(_) => "no read",
            Verdict::WrongOrder(_, _) => "no order",
        })
    }
}
