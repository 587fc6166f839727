//! Makes the word list of a plain text, measures and builds the text's index, reads a phrase through the list, counts it and lists its places.
use concordance::{make_list, read_text, Arrays, Index, Question, Refused, Shape};

fn main() -> Result<(), Refused> {
    let made = make_list(b"The cat sat on the mat. The cat sat.")?;
    println!("words read: {}, of them different: {}", made.ranks.len(), made.vocabulary());

    let shape = Shape::for_text(made.vocabulary());
    println!("memory for the index: {} bytes", Index::measure(shape, &made.ranks)?.memory());
    let index = Index::build(shape, &made.ranks)?;
    println!("node bytes of the index: {}", index.arrays().bytes.len());

    let phrase = read_text(&made.list, b"the cat")?;
    println!("words of the phrase: {}", phrase.len());
    println!("\"the cat\" stands {} times", index.count(&phrase)?);
    for page in index.pages(&phrase, 1) {
        let page = page?;
        println!("a page of one line: place {}, {}", page.places[0], if page.more { "more follow" } else { "the end" });
    }
    let sat = read_text(&made.list, b"sat")?[0];
    println!("\"sat\" stands {} times before place 6", index.ask(&[], Question::occurrences_below(sat, 6))?);

    let mut arrays: Arrays = index.into_arrays();
    arrays.bytes[0] = 5; // says that another byte follows, in node 6, and there is only node 0
    match Index::from_arrays(shape, arrays) {
        Ok(_) => println!("the damaged index passed"),
        Err(refused) => println!("with a byte that leads to a missing node: {refused}"),
    }
    Ok(())
}
