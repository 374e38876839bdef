//! What the peer replies, in the form in which the engine and the reference are compared.

use comparison::Told;
use peer::Refusal;

/// A reply of the peer. The refusals 4 to 7 and 18 tell of a graph.
pub fn told<T>(result: Result<T, Refusal>, tell: impl FnOnce(T) -> Told) -> Told {
    match result {
        Ok(answer) => tell(answer),
        Err(Refusal { number, second }) => {
            let side = matches!(number, 4..=7 | 18).then_some(usize::from(second));
            Told::Refused(number, side)
        }
    }
}
