(* A number brought between two limits; within them, it is one more if it is to be rounded up. *)
let clamp low high up value =
  let result = ref value in
  if value < low then result := low
  else if value > high then result := high
  else if up then result := !result + 1;
  !result
