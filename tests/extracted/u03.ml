type t = { mutable f0 : int; mutable f1 : int; mutable f2 : int; mutable f3 : int; mutable f4 : int; mutable f5 : int }
external read : int -> int = "READ"
external peek : int -> int = "PEEK"
external sound : int -> int -> int = "SOUND"
external lamp_2 : int -> int -> int = "LAMP_2"
external log : int -> int -> int -> int = "LOG"
external valve : int -> int -> int -> int -> int = "VALVE"
external pump : int -> int -> int -> int -> int -> int = "PUMP"

let f1 (r : t) (a1 : int) (a2 : int) (a3 : int) (a4 : int) (a5 : int) =
  (let m6 = ref ((((if ((r.f0 + 1) <> (a5 + 5)) then ((if ((a4) <> ((r.f5) - (a5))) then ((((((((ignore (lamp_2 (a5) (a5)); a5)) - ((-1)))) + (a5))) + ((153)))) else ((1)))) else (a5))) + (a5))) in (let v7 = a5 in v7))

let f2 (r : t) =
  (let m3 = ref ((((if ((sound ((if (((r.f3) - (pump ((let b2 = (log ((2)) (sound ((r.f4 <- (r.f5); 0)) (valve ((((r.f1 <- (0); (3))) + (read ((3))))) ((((((1)) + (0))) + ((if (((lamp_2 (0) ((-333))) - (r.f5)) = ((lamp_2 ((4)) ((873))) - (r.f2))) then (0) else ((0)))))) ((ignore (read (((0) - ((1))))); log ((5)) ((-192)) (0))) ((let b1 = (((pump ((((4)) - ((432)))) ((if ((~- (lamp_2 ((-476)) ((-388)))) <> (r.f1)) then (0) else ((-1)))) ((~- (0))) (peek (0)) (0)) - (sound (pump ((2)) (0) ((-394)) ((-337)) (0)) (((0) - ((-1)))))) < (pump ((r.f2 <- (0); (2))) (valve ((4)) ((3)) ((-967)) (0)) (valve ((-1)) ((2)) (0) (0)) ((2)) ((if (((read ((3))) - (valve ((-998)) ((3)) (0) ((2)))) >= ((peek ((0))) - (sound ((1)) ((-443))))) then ((1)) else (0))))) in (3))))) ((719)) <= (936)) in 0)) ((3)) ((1)) (0) ((3)))) >= (r.f5 + 2)) then (0) else ((982)))) (0)) <> ((lamp_2 (0) ((952))) - (r.f1))) then ((2)) else (0))) + (0))) in (let m4 = ref (0) in (2)))

let f3 (a1 : int) (r : t) (t2 : bool) (a3 : int) (a4 : int) (a5 : int) (a6 : int) =
  a6
