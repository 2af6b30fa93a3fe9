type t = { mutable f0 : int; mutable f1 : int }
type s = C0 | C1 | C2 | C3 | C4 | C5
external read : int -> int = "READ"
external peek : int -> int = "PEEK"
external sound : int -> int -> int = "SOUND"
external lamp_2 : int -> int -> int = "LAMP_2"
external log : int -> int -> int -> int = "LOG"
external valve : int -> int -> int -> int -> int = "VALVE"
external pump : int -> int -> int -> int -> int -> int = "PUMP"
external flag : int -> bool = "PEEK"
let three = 3
let limit = 554
let below = -16
let day = 24 * 14
let last = limit - 1

let f1 (a1 : int) (t2 : bool) (a3 : int) (t4 : bool) (a5 : int) =
  (for i6 = (0) downto three + (-2) do (match a5 with | 2 -> (ignore (peek (i6))) | 3 -> ((if (a1 < day) then ((for i7 = (0) to (3) do (if ((flag (-504)) || ((a5 <> (-400)) || (i6 > (-246)))) then (ignore (peek (i7))) else ((if (i7 >= (2)) then (ignore (valve ((3)) (i7) (i7) (i7))) else (ignore (read (i7)))))); ignore (valve (i7) ((-1)) (i7) (i7)) done)) else (ignore (sound (i6) (i6))))) | 4 -> (ignore (peek (i6))) | 5 -> (ignore (sound (i6) ((0)))) | 6 -> (ignore (lamp_2 (i6) (i6))) | _ -> (ignore (read (i6)))) done);
  (let m8 = ref (1) in a5)

let f2 (c1 : s) (a2 : int) =
  (if ((flag a2) && ((4) < a2)) then ((for i3 = (1) downto three + (-2) do (match a2 with | -1 -> ((if (not (flag i3)) then ((match a2 with | 0 -> (ignore (sound ((1)) ((-1)))) | 1 | 2 -> ((for i4 = (-1) to (1) do ignore (read (i4)) done)) | 3 | 4 -> ((if (i3 > i3) then (ignore (sound ((2)) ((2)))) else (ignore (peek (i3))))) | _ -> (ignore (lamp_2 (i3) ((3)))))) else ((if (((not (not (i3 >= i3))) || ((-2) <> i3)) || (limit >= (1) && limit <= 8)) then ((for i5 = (2) downto three + (-4) do ignore (log (i5) (i5) (i5)) done)) else ((if ((5) > i3) then (ignore (read (i3))))))))) | 0 | 1 | 2 -> (ignore (log (i3) ((1)) (i3))) | 3 -> ((for i6 = (3) to (2) do (if (a2 = (717)) then (ignore (peek (i6)))); ignore (lamp_2 ((0)) (i6)) done)) | 4 -> (ignore (log ((0)) (i3) ((-2)))) | _ -> (ignore (lamp_2 ((-2)) (i3)))); (match c1 with | C0 -> ((if (i3 > (538)) then (ignore (peek (i3))) else (ignore (log (i3) ((0)) (i3))))) | C1 -> (ignore (sound (i3) (i3))) | C2 -> (ignore (valve ((3)) (i3) (i3) (i3))) | C3 -> (ignore (valve ((5)) ((-633)) (i3) (i3))) | C4 -> (ignore (read (i3))) | C5 -> (ignore (sound (i3) ((1))))) done)) else (ignore (read (a2))));
  (let v7 = a2 in (4))
