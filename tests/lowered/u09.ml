type t = { mutable f0 : int; mutable f1 : int; mutable f2 : int; mutable f3 : int }
type s = C0 | C1 | C2 | C3 | C4 | C5
external read : int -> int = "READ"
external peek : int -> int = "PEEK"
external sound : int -> int -> int = "SOUND"
external lamp_2 : int -> int -> int = "LAMP_2"
external log : int -> int -> int -> int = "LOG"
external valve : int -> int -> int -> int -> int = "VALVE"
external pump : int -> int -> int -> int -> int -> int = "PUMP"
external flag : int -> bool = "PEEK"
let three = 3
let limit = 513
let below = -4
let day = 24 * 33
let last = limit - 1

let f1 (c1 : s) (r : t) =
  (for i2 = (1) to (1) do (if ((-2) <> i2) then ((if (((887) >= r.f0) || (((r.f0 <> (2)) && (flag i2)) && (flag i2))) then (ignore (sound ((0)) (i2))))) else (r.f3 <- (match i2 with | 0 -> (~- ((i2 - i2))) | 1 -> (match c1 with | C0 -> (ignore (valve (i2) (i2) (i2) ((4))); i2) | C1 | C2 -> (if (r.f0 > (0)) then (2) else i2) | C3 -> (i2 + 105) | C4 -> i2 | C5 -> i2) | 2 -> i2 | 3 -> i2 | 4 -> i2 | _ -> i2))) done);
  (let b3 = ((lamp_2 ((-1)) (0)) > (1)) in 0)

let f2 (r : t) =
  ignore (pump (0) (0) (0) (0) ((2)));
  (let m4 = ref (r.f1 <- (let b1 = (not ((sound ((-1)) (0)) = (4))) in (if b1 then (match (sound (0) ((-1))) with | 0 -> (-1) | 1 -> (ignore (peek (0)); 0) | 2 | 3 -> (log ((-2)) (0) ((4))) | 4 | 5 -> (let v2 = 0 in (466)) | _ -> (pump ((1)) (0) ((4)) ((5)) (0))) else ((for i3 = (1) to (1) do ignore (peek (i3)); ignore (lamp_2 (i3) (i3)) done); (0 - 0)))); last) in !m4)
