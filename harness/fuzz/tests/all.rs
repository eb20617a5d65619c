//! Inputs become what they should, and each planted error is found: by any inputs, where libFuzzer finds it by better ones.

mod found;
mod inputs;
