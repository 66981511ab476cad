zebra(Owner).
water(Drinker).
table.
solution([house(C, _, _, _, _)|_]).
solution([_, house(red, _, _, _, _)|_]).
