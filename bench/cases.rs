//! The calls that bench/run-evaluating times: what the product runs, Backus's and 001's programs, and calls made to find where
//! the proved evaluator does worst.

pub struct Case {
    pub name: &'static str,
    pub program: String,
    pub object: String,
    pub budgets: [u32; 3],
    /// how many runs are timed together
    pub runs: usize,
}

fn case(name: &'static str, program: &str, object: String, budgets: [u32; 3], runs: usize) -> Case {
    Case { name, program: program.into(), object, budgets, runs }
}

fn sequence(places: impl IntoIterator<Item = String>) -> String {
    format!("<{}>", places.into_iter().collect::<Vec<_>>().join(","))
}

fn times(n: usize, place: &str) -> String {
    sequence((0..n).map(|_| place.to_string()))
}

fn matrix(n: i32, f: impl Fn(i32, i32) -> i32) -> String {
    sequence((0..n).map(|i| sequence((0..n).map(|j| f(i, j).to_string()))))
}

/// A school day: when the child sleeps, and what is planned from when to when. Homework is always open.
fn bedtime() -> Case {
    let program = "main=@plan.distl.[bed,3];bed=2;plan=(homework->open;(late->shut;(allowed->open;shut)));\
                   homework=eq.[3.2,%HOMEWORK];late=lt.[1,2.2];allowed=not.or.[eq.[3.2,%SCHOOL],eq.[3.2,%DINNER]];\
                   open=apndl.[%OPEN,tlr.2];shut=apndl.[%SHUT,tlr.2];";
    let day = "<TUE,1260,<<420,480,BREAKFAST>,<480,900,SCHOOL>,<930,990,HOMEWORK>,<990,1080,PLAY>,<1080,1140,DINNER>,\
               <1140,1200,HOMEWORK>,<1200,1290,PLAY>,<1290,1320,HOMEWORK>>>";
    case("bedtime rule on a day", program, day.into(), [10000, 16, 1024], 50)
}

fn matrices() -> Case {
    let object = sequence([matrix(8, |i, j| (i * 7 + j * 3) % 19 - 9), matrix(8, |i, j| (i * 5 + j * 11) % 23 - 11)]);
    case("matrix multiply, 8 by 8", "main=@@ip.@distl.distr.[1,trans.2];ip=/add.@mul.trans;", object, [100000, 8, 4096], 10)
}

/// Four tens, each from its largest down: 001's selection sort, with the least found by an insert, since 001's own way needs
/// more than 4,096 cells for 40 numbers.
fn sorting() -> Case {
    let program = "main=sort;least=/(lt->1;2);delete=(eq.[1,1.2]->tl.2;apndl.[1.2,delete.[1,tl.2]]);\
                   sort=(null->id;apndl.[1,sort.delete].[least,id]);";
    let numbers = (0..40).map(|i| (i / 10 * 10 + 9 - i % 10).to_string());
    case("selection sort of 40", program, sequence(numbers), [100000, 256, 4096], 5)
}

/// Whole calls.
pub fn calls() -> Vec<Case> {
    vec![
        bedtime(),
        case("the shortest call", "main=id;", "<>".into(), [10, 1, 4096], 200),
        matrices(),
        sorting(),
        case("a name 200 deep", "main=(null->%0;add.[%1,main.tl]);", times(199, "7"), [100000, 256, 4096], 10),
        case("a while of 100,000 rounds", "main=(lt?id);", "<1,2>".into(), [200002, 8, 4096], 1),
        case("/add.@ over 1,020", "main=/add.@(length.%<7>);", times(1020, "7"), [1000000, 8, 4096], 1),
    ]
}

/// Calls whose steps take longest: words that look at every place, over and over.
pub fn long_steps() -> Vec<Case> {
    let last = |n: usize| format!("<{}T>", "1,".repeat(n - 1));
    vec![
        case("(1r?id) on 4,096 places", "main=(1r?id);", last(4096), [20000, 1, 4096], 1),
        case("(255?id) on 255 places", "main=(255?id);", last(255), [20000, 1, 4096], 1),
        case("(null.trans?id) on 4,096 rows", "main=(null.trans?id);", times(4096, "<>"), [20000, 1, 4096], 1),
        case("insert over 2,048", "main=/2;", times(2048, "1"), [20000, 1, 4096], 1),
        case("a while (lt?id)", "main=(lt?id);", "<1,2>".into(), [20000, 1, 4096], 1),
    ]
}
