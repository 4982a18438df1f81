//! `show`: the text of a policy.

use crate::fault::Fault;
use crate::out::Out;
use crate::policies::Named;
use crate::words::Words;

pub fn obey(words: &Words) -> Result<(), Fault> {
    let [path] = words.exactly()?;
    let named = Named::read(path)?;
    let mut out = Out::of(words.out()?)?;
    out.put(named.policy.text().as_bytes())?;
    out.finish()
}
