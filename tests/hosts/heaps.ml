(* A program with all that a compaction has to redirect: records and arrays, floats and strings, closures that share a block,
   weak arrays, ephemerons, finalisers. Prints sums, which don't depend on when a collection comes. *)

type tree = Leaf | Node of tree * int * string * tree

let rec grow depth label =
  if depth = 0 then Leaf
  else Node (grow (depth - 1) (2 * label), label, string_of_int label, grow (depth - 1) ((2 * label) + 1))

let rec sum = function Leaf -> 0 | Node (low, label, text, high) -> sum low + label + int_of_string text + sum high

(* Two closures in one block, of which the second is reached by its own header inside of it. *)
let counters step =
  let rec even n = if n = 0 then step else odd (n - 1) and odd n = if n = 0 then -step else even (n - 1) in
  (even, odd)

let kept = Array.init 500 (fun i -> snd (counters i))
let keys = Array.init 500 (fun i -> string_of_int i)
let weak = Weak.create 500
let pairs = Array.map (fun key -> let pair = Ephemeron.K1.create () in Ephemeron.K1.set_key pair key; pair) keys
let finalised = ref 0
let trees = Array.make 64 Leaf
let floats = Array.init 1000 float_of_int

let start i key =
  Weak.set weak i (Some key);
  Ephemeron.K1.set_data pairs.(i) (ref i);
  Gc.finalise (fun it -> finalised := !finalised + !it) (ref i)

(* Replaces a tree, so that there are holes at each cycle. *)
let replace i = trees.(i * 7 mod 64) <- grow (i mod 9) (i + 1)

let weak_sum () =
  let total = ref 0 in
  for i = 0 to 499 do
    (match Weak.get weak i with Some key -> total := !total + int_of_string key | None -> print_endline "a key is lost");
    match Ephemeron.K1.get_data pairs.(i) with Some it -> total := !total + !it | None -> print_endline "a datum is lost"
  done;
  !total

let () =
  let rounds = int_of_string Sys.argv.(1) in
  Array.iteri start keys;
  for i = 1 to rounds do replace i done;
  Gc.full_major ();
  Printf.printf "trees %d\n" (Array.fold_left (fun total tree -> total + sum tree) 0 trees);
  Printf.printf "closures %d\n" (Array.fold_left (fun total odd -> total + odd 3) 0 kept);
  Printf.printf "weak %d\n" (weak_sum ());
  Printf.printf "finalised %d\n" !finalised;
  Printf.printf "floats %g\n" (Array.fold_left ( +. ) 0. floats)
