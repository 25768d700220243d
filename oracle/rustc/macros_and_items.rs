fn main() {
    // a macro means the x that stood before it
    let x = 1; macro_rules! m7 { () => { x } } let x = 2;
    println!("before {} {}", m7!(), x);
    // two steps
    let x = 1; macro_rules! m7 { () => { { let x = x + 10; macro_rules! m8 { () => { x } } let x = 99; (m8!(), x) } } } let x = 2;
    println!("nested {:?} {}", m7!(), x);
    // macro calls macro
    let x = 1; macro_rules! a { () => { x } } let x = 2; macro_rules! b { () => { a!() } } let x = 3;
    println!("calls {} {}", b!(), x);
    // recursion
    let x = 1; macro_rules! r { () => { x }; (1) => { { let x = 50; let _ = x; r!() } } } let x = 7;
    println!("rec {} {}", r!(1), x);
    // a macro's own let, seen by the macro only
    let x = 1; macro_rules! own { ($e:expr) => { { let x = 5; x * 100 + $e } } } let x = 2;
    println!("own {}", own!(x));
    // in a closure and a nested block after shadowing
    let x = 1; macro_rules! d { () => { x } }
    let f = |x: i32| { let x = x + 1; { let x = x * 2; d!() * 1000 + x } };
    println!("closure {}", f(3));
    // item seen from a macro: not hygienic, by place of the invocation
    macro_rules! it { () => { helper() } }
    fn helper() -> i32 { 1 }
    { fn helper() -> i32 { 2 } println!("item {}", it!()); }
    println!("item {}", it!());
    // item of an inner block and a local of an outer one: the local bound before the macro, the item in the block of the call
    let v = || 10; macro_rules! lv { () => { v() } }
    { fn v() -> i32 { 20 } println!("block item before macro's local {}", lv!()); }
    // the same with the local in the same block as the item
    { let w = || 10; fn w() -> i32 { 20 } macro_rules! lw { () => { w() } } println!("same block {} {}", lw!(), w()); }
    { macro_rules! lw { () => { w() } } let w = || 10; fn w() -> i32 { 20 } println!("macro first {} {}", lw!(), w()); }
    // let chains
    let x = Some(Some(1));
    if let Some(x) = x && let Some(x) = x && x == 1 { println!("chain {x}") } else { println!("{x:?}") }
    match Some(4) { Some(x) if { let x = x + 1; x == 5 } => println!("guard {x}"), _ => println!("{x:?}") }
}
