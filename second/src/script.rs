//! The operations of a script, as `replay` and hookup_run read them.
//! The replay format (operations), and the C header, `hookup_run`.

use crate::bench::Call;
use crate::record::u32_at;

#[derive(Clone, PartialEq, Eq, Debug)]
pub enum Operation {
    /// Clear, Load or Hookup.
    Call(Call),
    Count,
    Part(u32),
}

/// What comes next in a script.
#[derive(Clone, PartialEq, Eq, Debug)]
pub enum Next {
    Operation(Operation, usize),
    End,
    Truncated,
    Unknown,
}

/// Reads the operation at an offset; with it comes the offset behind it.
pub fn next_operation(script: &[u8], at: usize) -> Next {
    if at == script.len() {
        return Next::End;
    }
    let rest = script.len() - at - 1;
    let argument = at + 1;
    match script[at] {
        0 => Next::Operation(Operation::Call(Call::Clear), argument),
        1 => {
            if rest < 4 {
                return Next::Truncated;
            }
            let length = u32_at(script, argument) as usize;
            if rest - 4 < length {
                return Next::Truncated;
            }
            let from = argument + 4;
            let record = script[from..from + length].to_vec();
            Next::Operation(Operation::Call(Call::Load(record)), from + length)
        }
        2 => {
            if rest < 8 {
                return Next::Truncated;
            }
            let (i, j) = (u32_at(script, argument) as usize, u32_at(script, argument + 4) as usize);
            Next::Operation(Operation::Call(Call::Hookup(i, j)), argument + 8)
        }
        3 => Next::Operation(Operation::Count, argument),
        4 => {
            if rest < 4 {
                return Next::Truncated;
            }
            Next::Operation(Operation::Part(u32_at(script, argument)), argument + 4)
        }
        _ => Next::Unknown,
    }
}

#[cfg(test)]
mod tests {
    use super::*;

    #[test]
    fn operations_by_hand() {
        let script = [0, 1, 2, 0, 0, 0, 7, 8, 2, 1, 0, 0, 0, 255, 255, 255, 255, 3, 4, 0, 1, 0, 0];
        let load = Operation::Call(Call::Load(vec![7, 8]));
        let hookup = Operation::Call(Call::Hookup(1, u32::MAX as usize));
        assert_eq!(next_operation(&script, 0), Next::Operation(Operation::Call(Call::Clear), 1));
        assert_eq!(next_operation(&script, 1), Next::Operation(load, 8));
        assert_eq!(next_operation(&script, 8), Next::Operation(hookup, 17));
        assert_eq!(next_operation(&script, 17), Next::Operation(Operation::Count, 18));
        assert_eq!(next_operation(&script, 18), Next::Operation(Operation::Part(256), 23));
        assert_eq!(next_operation(&script, 23), Next::End);
        for end in [2, 5, 6, 7] {
            assert_eq!(next_operation(&script[..end], 1), Next::Truncated);
        }
        for end in 9..17 {
            assert_eq!(next_operation(&script[..end], 8), Next::Truncated);
        }
        for end in 19..23 {
            assert_eq!(next_operation(&script[..end], 18), Next::Truncated);
        }
        assert_eq!(next_operation(&[5], 0), Next::Unknown);
        assert_eq!(next_operation(&[255, 0], 0), Next::Unknown);
    }
}
