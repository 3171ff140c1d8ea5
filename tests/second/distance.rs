//! Decoding by distance alone, for small codes and stacks: every codeword is compared with the received word.
//! Nothing here uses patterns or syndromes of received words.

use super::cells_that_differ;
use super::code::Code;
use super::stack::Stack;

/// Every word of n levels below q, the last cell counting fastest.
pub fn all_words(n: usize, q: usize) -> Vec<Vec<u8>> {
    words_below(&vec![q; n])
}

/// Every word whose cells stay each below its limit, the last cell counting fastest.
pub fn words_below(limits: &[usize]) -> Vec<Vec<u8>> {
    let mut words = vec![Vec::new()];
    for &limit in limits {
        words = words.iter().flat_map(|word| (0..limit).map(move |level| [word.as_slice(), &[level as u8]].concat())).collect();
    }
    words
}

/// Could the codeword have been read as the word, with at most t cells risen, each by at most l?
pub fn code_reaches(code: &Code, codeword: &[u8], word: &[u8]) -> bool {
    let risen_at_most_l = |(&written, &read): (&u8, &u8)| read >= written && usize::from(read - written) <= code.l;
    codeword.iter().zip(word).all(risen_at_most_l) && cells_that_differ(codeword, word) <= code.t
}

/// Could the codeword have been read as the word, with at most t digits of each plane's error, modulo q, not 0?
pub fn stack_reaches(stack: &Stack, codeword: &[u8], word: &[u8]) -> bool {
    let errors: Vec<u8> =
        codeword.iter().zip(word).map(|(&written, &read)| ((usize::from(read) + stack.q - usize::from(written)) % stack.q) as u8).collect();
    stack.planes.iter().all(|plane| plane.digits(&errors).iter().filter(|&&digit| digit != 0).count() <= plane.code.t)
}
