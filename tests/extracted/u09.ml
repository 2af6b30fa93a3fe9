type t = { mutable f0 : int; mutable f1 : int; mutable f2 : int; mutable f3 : int; mutable f4 : int; mutable f5 : int }
external read : int -> int = "READ"
external peek : int -> int = "PEEK"
external sound : int -> int -> int = "SOUND"
external lamp_2 : int -> int -> int = "LAMP_2"
external log : int -> int -> int -> int = "LOG"
external valve : int -> int -> int -> int -> int = "VALVE"
external pump : int -> int -> int -> int -> int -> int = "PUMP"

let f1 () =
  (let v2 = ((pump (0) (((if ((lamp_2 ((((((((ignore (lamp_2 ((if ((lamp_2 (0) ((-1))) > (~- (log ((2)) ((1)) ((3))))) then ((1)) else ((-1)))) ((((4)) + (0)))); (((2)) + 90))) + (0))) + 108)) + 238)) ((ignore (pump ((let b1 = (log (((if ((valve ((ignore (read (valve ((0)) ((2)) (0) ((-645)))); ((0) + ((-1))))) ((0)) (0) ((471))) = ((read ((-1))) - (sound ((448)) ((-507))))) then (ignore (log (0) ((20)) (0))) else (ignore (peek ((4))))); 0)) ((-3)) ((4)) >= (3)) in (1))) (0) (0) (0) ((1))); (2)))) <= (peek (0) + 7)) then (ignore (lamp_2 ((0)) ((4)))) else (ignore (valve ((3)) (0) ((2)) (0)))); 0)) (0) ((4)) (0)) - 50) in (let v3 = (3) in v3))

let f2 (a1 : int) (t2 : bool) (a3 : int) (a4 : int) (a5 : int) (a6 : int) (a7 : int) (a8 : int) =
  (let b9 = (a6 >= (924)) in (let b10 = ((a4 + 2) = (a4 + 2)) in (ignore (peek (peek (((if (not (((a7) - (a6)) <= (a7 + 6))) then (ignore (read ((ignore (pump ((0)) ((let b11 = ((a1) >= (a1 + 3)) in (4))) ((0)) (a8) (a8)); (0))))) else (ignore (pump ((-1)) ((4)) (a8) (a8) (a8)))); a8)))); a8)))
