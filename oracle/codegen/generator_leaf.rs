//! Takes the place of `generator/leaf.rs`, which is not part of the reference: there are no callbacks. As a child of `generator` it may
//! use that module's private items, so it opens the mask store and the generated states to the driver.

use super::Generator;
use crate::graph::{ByteClass, State};
use crate::leaf::Leaf;
use crate::views::{Choices, Fork};
use proc_macro2::{Delimiter, TokenStream, TokenTree};
use quote::quote;

impl<'a> Generator<'a> {
    pub fn generate_callback(&self, _leaf: &Leaf) -> TokenStream {
        quote!(unreachable!())
    }

    /// Where generated code stops, it answers with the leaf found, if any.
    pub fn take_action_macro(&self) -> TokenStream {
        quote! {
            macro_rules! _take_action {
                ($lex:ident, $offset:ident, $context:ident, $state:ident) => {
                    return $lex.taken($context.map(|leaf: LogosLeaf| leaf as usize))
                };
            }
        }
    }

    /// The mask number that `add_test_to_lut` answers with, by its table's name and its bit.
    pub fn mask_number(&mut self, class: &ByteClass) -> usize {
        let (table, bit) = self.add_test_to_lut(class);
        mask(&table.to_string(), usize::from(bit))
    }

    /// How many classes the store holds.
    pub fn masks_held(&self) -> usize {
        self.loop_masks.len()
    }

    /// The tables that `render_luts` renders, read back from its tokens.
    pub fn tables(&self) -> Vec<[u8; 256]> {
        let declared = self.render_luts().into_iter().collect::<Vec<_>>();
        declared
            .split(|token| matches!(token, TokenTree::Punct(mark) if mark.as_char() == ';'))
            .filter(|declaration| !declaration.is_empty())
            .map(|declaration| {
                let Some(TokenTree::Group(list)) = declaration.last() else {
                    panic!("a table without entries");
                };
                let entries = list
                    .stream()
                    .into_iter()
                    .filter(|token| matches!(token, TokenTree::Literal(_)))
                    .map(|token| number(&token.to_string()) as u8)
                    .collect::<Vec<_>>();
                entries.try_into().expect("256 entries")
            })
            .collect()
    }

    /// What the generated code of a state does with the next byte. States are to be asked for in ascending order, as `generate` does.
    pub fn choices(&mut self, state: State) -> Choices {
        let arm = self.generate_state(state).into_iter().last();
        let Some(TokenTree::Group(body)) = arm else {
            panic!("a state without a body");
        };
        let body = body.stream().into_iter().collect::<Vec<_>>();
        let looping = body.iter().any(|token| token.to_string() == "loop_test");
        let mut blocks = body.iter().filter_map(braced);
        let self_mask = looping.then(|| {
            let test = blocks.next().expect("a loop test");
            tested_mask(&test).expect("a loop test by mask")
        });
        let inner = blocks.next().expect("a fork").into_iter().collect::<Vec<_>>();
        let table = inner.iter().any(|token| token.to_string() == "TABLE");
        let forks = if table { None } else { Some(forks(&inner)) };
        Choices { self_mask, forks }
    }
}

/// The forks of `if CONDITION { .. state = LogosState::StateN; continue; }`, one after another.
fn forks(tokens: &[TokenTree]) -> Vec<(usize, Fork)> {
    let mut found = Vec::new();
    let mut condition = Vec::new();
    for token in tokens {
        if let Some(block) = braced(token) {
            let target = block.into_iter().find_map(|word| word.to_string().strip_prefix("State").map(number)).expect("a target");
            assert_eq!(condition.remove(0), "if");
            let text = condition.join(" ");
            let fork = match tested_mask_in(&text) {
                Some(mask) => Fork::Mask(mask),
                None => Fork::Comparisons(Box::new(std::array::from_fn(|byte| holds(&text, byte)))),
            };
            found.push((target, fork));
            condition.clear();
        } else {
            condition.push(token.to_string());
        }
    }
    assert!(condition.is_empty(), "words after the last fork");
    found
}

/// Whether a condition by comparisons, `(byte == b'a') || (matches ! (byte , 1u8 ..= 9u8) && byte != 5u8)`, holds for a byte.
fn holds(condition: &str, byte: usize) -> bool {
    condition.parse::<TokenStream>().expect("tokens").into_iter().any(|part| {
        let TokenTree::Group(part) = part else {
            return false;
        };
        let words = part.stream().into_iter().collect::<Vec<_>>();
        if let Some(TokenTree::Group(range)) = words.get(2).filter(|_| words[0].to_string() == "matches") {
            let ends = literals(range.stream());
            let except = literals(words[3..].iter().cloned().collect());
            ends.len() == 2 && ends[0] <= byte && byte <= ends[1] && !except.contains(&byte)
        } else {
            let ends = literals(part.stream());
            assert_eq!(ends.len(), 1, "a condition that is not known: {condition}");
            ends[0] == byte
        }
    })
}

/// The literals of a stream in order, as numbers.
fn literals(stream: TokenStream) -> Vec<usize> {
    stream.into_iter().filter(|token| matches!(token, TokenTree::Literal(_))).map(|token| literal_byte(&token.to_string())).collect()
}

/// `b'x'`, with its escapes for quote and backslash, or `5u8`.
fn literal_byte(text: &str) -> usize {
    match text.strip_prefix("b'").and_then(|rest| rest.strip_suffix('\'')) {
        Some(quoted) => usize::from(*quoted.as_bytes().last().expect("a byte")),
        None => number(text),
    }
}

fn braced(token: &TokenTree) -> Option<TokenStream> {
    match token {
        TokenTree::Group(group) if group.delimiter() == Delimiter::Brace => Some(group.stream()),
        _ => None,
    }
}

/// The mask of `_TABLE_0 [byte as usize] & 4u8 ..`, if the tokens start so.
fn tested_mask(tokens: &TokenStream) -> Option<usize> {
    tested_mask_in(&tokens.to_string())
}

fn tested_mask_in(text: &str) -> Option<usize> {
    let table = text.split_whitespace().next()?;
    if !table.starts_with("_TABLE_") {
        return None;
    }
    let bit = text.split('&').nth(1)?.trim();
    Some(mask(table, number(bit)))
}

/// Mask i is bit i mod 8 of table i / 8.
fn mask(table: &str, bit: usize) -> usize {
    let table = number(table.strip_prefix("_TABLE_").expect("a table's name"));
    assert!(bit.is_power_of_two() && bit < 256, "one bit");
    8 * table + bit.trailing_zeros() as usize
}

/// The number at the start of a text such as `4u8`.
fn number(text: &str) -> usize {
    let digits = text.find(|c: char| !c.is_ascii_digit()).unwrap_or(text.len());
    text[..digits].parse().expect("a number")
}
