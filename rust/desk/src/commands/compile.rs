//! `compile`: the policy file of a text.

use crate::fault::Fault;
use crate::out::Out;
use crate::policies::Named;
use crate::words::Words;

pub fn obey(words: &Words) -> Result<(), Fault> {
    let [path] = words.exactly()?;
    let file = words.out_needed()?;
    let named = Named::read(path)?;
    if named.text.is_none() {
        return Err(Fault::Failed(format!(
            "{}: it is a policy file already; show prints its text",
            named.name
        )));
    }
    let mut out = Out::of(Some(file))?;
    out.put(named.policy.bytes())?;
    out.finish()
}
