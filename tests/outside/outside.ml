(* Functions with instructions outside the 61 kinds, and what extract says of them (.ci/users-extract). Compiled by `ocamlc -g -c`. *)
external pump : int -> int -> int -> int -> int -> int -> int = "PUMP" "PUMP_N"

let fused x = if x > 3 then 1 else 0
let called f x = f x + 1
let tail f x = f (x + 1)
let closure x = fun y -> x - y
let pair x y = (y, x)
let product x y = x * y
let loop n =
  for _ = 1 to n do
    ()
  done
let first a = Array.unsafe_get a 0 + 1
let failing x = if x then raise Not_found else 0
let chosen = function 0 -> 5 | 1 -> 7 | 2 -> 1 | 3 -> 9 | _ -> 4
let same x y = x = y
let constant () = "text"
let kept x = let r = ref x in incr r; !r
let six x = pump x x x x x x
let large () = 1073741824
let turned x = chosen x + 1
let both x y = x + y
