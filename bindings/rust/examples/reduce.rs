//! Reduces the trace of a pulse, prints the kept samples, writes their record and reads it back.

use kovrelna::{read, walk, write, Refusal, Tolerance};

const SAMPLES: usize = 14;

fn main() -> Result<(), Refusal> {
    let ticks: [u32; SAMPLES] = [0, 1, 2, 3, 4, 5, 6, 7, 8, 10, 12, 16, 20, 24];
    let values: [i16; SAMPLES] = [-1, 0, 1, 0, 40, 81, 119, 160, 131, 80, 50, 20, 9, 4];
    let tolerance = Tolerance::Counts(2.5);

    let mut kept = [0; SAMPLES];
    let number = walk(&ticks, &values, tolerance, &mut kept)?;
    let kept = &kept[..number];
    let shown: String = kept.iter().map(|sample| format!(" {sample}")).collect();
    println!("kept {number} of {SAMPLES} samples:{shown}");

    let mut record = [0; 21 + 6 * SAMPLES];
    let length = write(&ticks, &values, kept, tolerance, &mut record, 0)?;
    let record = &record[..length];
    let shown: String = record.iter().map(|byte| format!(" {byte:02X}")).collect();
    println!("record of {length} bytes:{shown}");

    let (mut ticks, mut values) = ([0; SAMPLES], [0; SAMPLES]);
    let content = read(record, &mut ticks, &mut values)?;
    println!("tolerance {}", content.tolerance);
    for (tick, value) in ticks.iter().zip(values).take(content.samples) {
        println!("tick {tick} value {value}");
    }
    Ok(())
}
