(* Functions with what no card has, each with what extract says of it (.ci/users-extract). Compiled by `ocamlc -c` for the code, and by
   `ocamlc -g -c` in the folder g for the names and lines. *)
type shape = Dot | Line of int | Disc of int | Plane
type point = { mutable x : int; mutable y : int }

external read : unit -> int = "READ"
external reading : int -> int = "READING_LONG"
external pump : int -> int -> int -> int -> int -> int -> int = "PUMP" "PUMP_N"

let measured = read ()
let sensors = [| 1; 2; 3 |]

let several p x =
  p.x <- x * 3;
  p.y <- x / 7;
  if x mod 2 = 0 then p.x <- min p.x 100;
  p.x + measured

let product x y = x * y land 7
let quotient x y = x / y
let element (a : int array) i = a.(i)
let pair x y = (y, x)
let largest (x : int) y = max x y
let made p x =
  let inner y = x - y in
  p.x <- inner 1 + inner p.y
let mean x = x *. 0.5
let checked x = if x > 9 then raise Not_found else x
let same x y = x = y
let order (x : int) y = compare x y
let large x = x + 1_073_741_824
let offset x = x + measured
let first () = Array.unsafe_get sensors 0
let width x = x + Sys.int_size
let until x =
  let n = ref x in
  while !n > 3 do
    n := !n - reading !n
  done;
  !n
let counted n =
  let sum = ref 0 in
  for i = 1 to n do
    sum := !sum + i
  done;
  !sum
let endless p =
  for _ = 1 to 1_000 do
    p.x <- p.x + 1
  done
let short p =
  for i = 1 to 3 do
    p.x <- p.x + i
  done
let area = function Dot -> 0 | Line n -> n | Disc n -> n + n | Plane -> 9
let six x = pump x x x x x x
let text () = "text"
let rec fall x = if x > 0 then fall (x - 1) else 0
let caught x = try several { x; y = x } x with Not_found -> 0
