(* The larger of a sum and a difference. *)
let larger a b c d =
  let sum = a + b in
  let difference = c - d in
  if sum >= difference then sum else difference
