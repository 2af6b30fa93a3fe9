type t = { mutable f0 : int; mutable f1 : int; mutable f2 : int; mutable f3 : int }
type s = C0 | C1 | C2 | C3
external read : int -> int = "READ"
external peek : int -> int = "PEEK"
external sound : int -> int -> int = "SOUND"
external lamp_2 : int -> int -> int = "LAMP_2"
external log : int -> int -> int -> int = "LOG"
external valve : int -> int -> int -> int -> int = "VALVE"
external pump : int -> int -> int -> int -> int -> int = "PUMP"
external flag : int -> bool = "PEEK"
let three = 3
let limit = 131
let below = -7
let day = 24 * 11
let last = limit - 1

let f1 (a1 : int) (r : t) =
  (if ((((-369) = a1) || ((not ((-1) > a1)) && ((a1 = (1)) && ((0) = a1)))) || (not (a1 > (-1)))) then ((for i2 = (1) to (3) do (if (i2 > (986)) then (r.f3 <- a1)); (match three with | -3 | -2 -> ((for i3 = (1) downto (2) do (match r.f2 with | 0 -> (ignore (valve (i3) (i3) ((293)) (i3))) | 1 -> (ignore (pump (i3) (i3) (i3) ((1)) (i3))) | 2 -> (r.f2 <- (331)) | 3 | 4 -> (r.f1 <- (-906)) | 5 -> (ignore (log ((573)) ((1)) ((0)))) | _ -> (ignore (pump (i3) (i3) ((0)) (i3) (i3)))); ignore (read ((5))) done)) | -1 -> (ignore (read (i2))) | 0 -> (ignore (lamp_2 (i2) (i2))) | 1 | 2 -> (ignore (peek ((3)))) | _ -> (ignore (valve (i2) (i2) (i2) ((0))))) done)));
  (let v4 = (3) in (-753))

let f2 (r : t) =
  (for i1 = (1) to (0) do (for i2 = (-1) to (1) do ignore (peek (i2)) done); r.f1 <- (if ((((not (last > (-433))) || ((2) >= i1)) && ((flag i1) && ((i1 <= (2)) || (not (i1 >= i1))))) || (i1 >= (-264))) then i1 else (1)) done);
  (let m3 = ref 0 in 0)

let f3 (a1 : int) (a2 : int) (a3 : int) (r : t) =
  r.f0 <- (if (not ((a2 = (-1)) || (((1) < last) && (a2 >= (666) && a2 <= 673)))) then ((-957) - 47) else (5));
  (let b4 = ((3) < a1) in a3)
