* Crews at thirty rescue posts, by day and by night, for 32 districts. Costs are in 10 euros a day.
NAME coverage
ROWS
 N cost
 G day_d01
 G day_d02
 G day_d03
 G day_d04
 G day_d05
 G day_d06
 G day_d07
 G day_d08
 G day_d09
 G day_d10
 G day_d11
 G day_d12
 G day_d13
 G day_d14
 G day_d15
 G day_d16
 G day_d17
 G day_d18
 G day_d19
 G day_d20
 G day_d21
 G day_d22
 G day_d23
 G day_d24
 G day_d25
 G day_d26
 G day_d27
 G day_d28
 G day_d29
 G day_d30
 G day_d31
 G day_d32
 G night_d01
 G night_d02
 G night_d03
 G night_d04
 G night_d05
 G night_d06
 G night_d07
 G night_d08
 G night_d09
 G night_d10
 G night_d11
 G night_d12
 G night_d13
 G night_d14
 G night_d15
 G night_d16
 G night_d17
 G night_d18
 G night_d19
 G night_d20
 G night_d21
 G night_d22
 G night_d23
 G night_d24
 G night_d25
 G night_d26
 G night_d27
 G night_d28
 G night_d29
 G night_d30
 G night_d31
 G night_d32
 L hall_east
 L night_crews
 L crews
COLUMNS
 M 'MARKER' 'INTORG'
 day_p01   cost 146 day_d03 1
 day_p01   day_d08 1 day_d09 1
 day_p01   day_d12 1 day_d14 1
 day_p01   day_d15 1 day_d18 1
 day_p01   day_d21 1 day_d25 1
 day_p01   day_d26 1 day_d29 1
 day_p01   day_d31 1 hall_east 1
 day_p01   crews 1
 day_p02   cost 136 day_d02 1
 day_p02   day_d04 1 day_d07 1
 day_p02   day_d11 1 day_d17 1
 day_p02   day_d18 1 day_d23 1
 day_p02   day_d27 1 day_d28 1
 day_p02   day_d32 1 hall_east 1
 day_p02   crews 1
 day_p03   cost 147 day_d03 1
 day_p03   day_d08 1 day_d09 1
 day_p03   day_d12 1 day_d14 1
 day_p03   day_d15 1 day_d21 1
 day_p03   day_d25 1 day_d31 1
 day_p03   hall_east 1 crews 1
 day_p04   cost 159 day_d01 1
 day_p04   day_d04 1 day_d06 1
 day_p04   day_d07 1 day_d10 1
 day_p04   day_d16 1 day_d17 1
 day_p04   day_d20 1 day_d22 1
 day_p04   day_d24 1 day_d28 1
 day_p04   day_d30 1 day_d32 1
 day_p04   crews 1
 day_p05   cost 156 day_d02 1
 day_p05   day_d03 1 day_d09 1
 day_p05   day_d11 1 day_d12 1
 day_p05   day_d15 1 day_d17 1
 day_p05   day_d18 1 day_d19 1
 day_p05   day_d21 1 day_d23 1
 day_p05   day_d25 1 day_d28 1
 day_p05   day_d29 1 day_d32 1
 day_p05   hall_east 1 crews 1
 day_p06   cost 168 day_d02 1
 day_p06   day_d03 1 day_d08 1
 day_p06   day_d09 1 day_d11 1
 day_p06   day_d12 1 day_d14 1
 day_p06   day_d15 1 day_d18 1
 day_p06   day_d19 1 day_d21 1
 day_p06   day_d23 1 day_d25 1
 day_p06   day_d26 1 day_d29 1
 day_p06   day_d31 1 hall_east 1
 day_p06   crews 1
 day_p07   cost 141 day_d01 1
 day_p07   day_d04 1 day_d06 1
 day_p07   day_d10 1 day_d13 1
 day_p07   day_d16 1 day_d20 1
 day_p07   day_d24 1 day_d30 1
 day_p07   crews 1
 day_p08   cost 155 day_d02 1
 day_p08   day_d03 1 day_d09 1
 day_p08   day_d11 1 day_d12 1
 day_p08   day_d15 1 day_d17 1
 day_p08   day_d18 1 day_d19 1
 day_p08   day_d21 1 day_d23 1
 day_p08   day_d25 1 day_d28 1
 day_p08   day_d29 1 day_d32 1
 day_p08   hall_east 1 crews 1
 day_p09   cost 189 day_d04 1
 day_p09   day_d10 1 day_d16 1
 day_p09   day_d22 1 crews 1
 day_p10   cost 186 day_d02 1
 day_p10   day_d11 1 day_d19 1
 day_p10   day_d25 1 day_d26 1
 day_p10   hall_east 1 crews 1
 day_p11   cost 162 day_d01 1
 day_p11   day_d04 1 day_d06 1
 day_p11   day_d10 1 day_d16 1
 day_p11   day_d20 1 day_d22 1
 day_p11   day_d30 1 crews 1
 day_p12   cost 174 day_d01 1
 day_p12   day_d04 1 day_d06 1
 day_p12   day_d07 1 day_d10 1
 day_p12   day_d13 1 day_d20 1
 day_p12   day_d24 1 day_d30 1
 day_p12   crews 1
 day_p13   cost 188 day_d02 1
 day_p13   day_d04 1 day_d07 1
 day_p13   day_d10 1 day_d11 1
 day_p13   day_d15 1 day_d16 1
 day_p13   day_d17 1 day_d18 1
 day_p13   day_d23 1 day_d28 1
 day_p13   day_d29 1 day_d32 1
 day_p13   crews 1
 day_p14   cost 146 day_d02 1
 day_p14   day_d03 1 day_d04 1
 day_p14   day_d09 1 day_d11 1
 day_p14   day_d12 1 day_d15 1
 day_p14   day_d16 1 day_d17 1
 day_p14   day_d18 1 day_d21 1
 day_p14   day_d23 1 day_d28 1
 day_p14   day_d29 1 day_d32 1
 day_p14   hall_east 1 crews 1
 day_p15   cost 178 day_d02 1
 day_p15   day_d03 1 day_d08 1
 day_p15   day_d09 1 day_d11 1
 day_p15   day_d12 1 day_d14 1
 day_p15   day_d18 1 day_d19 1
 day_p15   day_d21 1 day_d23 1
 day_p15   day_d25 1 day_d26 1
 day_p15   day_d29 1 day_d31 1
 day_p15   hall_east 1 crews 1
 day_p16   cost 164 day_d02 1
 day_p16   day_d03 1 day_d05 1
 day_p16   day_d08 1 day_d09 1
 day_p16   day_d11 1 day_d12 1
 day_p16   day_d15 1 day_d17 1
 day_p16   day_d18 1 day_d19 1
 day_p16   day_d21 1 day_d23 1
 day_p16   day_d25 1 day_d28 1
 day_p16   day_d29 1 day_d32 1
 day_p16   hall_east 1 crews 1
 day_p17   cost 189 day_d02 1
 day_p17   day_d03 1 day_d08 1
 day_p17   day_d11 1 day_d12 1
 day_p17   day_d14 1 day_d18 1
 day_p17   day_d19 1 day_d21 1
 day_p17   day_d23 1 day_d25 1
 day_p17   day_d26 1 hall_east 1
 day_p17   crews 1
 day_p18   cost 148 day_d02 1
 day_p18   day_d11 1 day_d12 1
 day_p18   day_d17 1 day_d18 1
 day_p18   day_d19 1 day_d21 1
 day_p18   day_d23 1 day_d25 1
 day_p18   day_d26 1 hall_east 1
 day_p18   crews 1
 day_p19   cost 164 day_d01 1
 day_p19   day_d04 1 day_d06 1
 day_p19   day_d07 1 day_d10 1
 day_p19   day_d16 1 day_d20 1
 day_p19   day_d22 1 day_d24 1
 day_p19   day_d28 1 day_d30 1
 day_p19   day_d32 1 crews 1
 day_p20   cost 161 day_d02 1
 day_p20   day_d08 1 day_d11 1
 day_p20   day_d12 1 day_d14 1
 day_p20   day_d19 1 day_d25 1
 day_p20   day_d26 1 day_d31 1
 day_p20   hall_east 1 crews 1
 day_p21   cost 169 day_d07 1
 day_p21   day_d17 1 day_d27 1
 day_p21   hall_east 1 crews 1
 day_p22   cost 162 day_d03 1
 day_p22   day_d05 1 day_d09 1
 day_p22   day_d12 1 day_d15 1
 day_p22   day_d18 1 day_d21 1
 day_p22   day_d29 1 crews 1
 day_p23   cost 135 day_d03 1
 day_p23   day_d08 1 day_d09 1
 day_p23   day_d12 1 day_d14 1
 day_p23   day_d15 1 day_d21 1
 day_p23   day_d25 1 day_d31 1
 day_p23   hall_east 1 crews 1
 day_p24   cost 141 day_d05 1
 day_p24   day_d15 1 day_d16 1
 day_p24   day_d18 1 day_d22 1
 day_p24   day_d28 1 day_d29 1
 day_p24   day_d32 1 crews 1
 day_p25   cost 162 day_d04 1
 day_p25   day_d10 1 day_d16 1
 day_p25   day_d22 1 day_d28 1
 day_p25   day_d32 1 crews 1
 day_p26   cost 174 day_d02 1
 day_p26   day_d03 1 day_d11 1
 day_p26   day_d12 1 day_d15 1
 day_p26   day_d17 1 day_d18 1
 day_p26   day_d19 1 day_d21 1
 day_p26   day_d23 1 day_d25 1
 day_p26   day_d28 1 day_d29 1
 day_p26   day_d32 1 hall_east 1
 day_p26   crews 1
 day_p27   cost 160 day_d02 1
 day_p27   day_d08 1 day_d11 1
 day_p27   day_d12 1 day_d14 1
 day_p27   day_d19 1 day_d25 1
 day_p27   day_d26 1 day_d31 1
 day_p27   hall_east 1 crews 1
 day_p28   cost 188 day_d07 1
 day_p28   day_d13 1 day_d20 1
 day_p28   day_d24 1 day_d27 1
 day_p28   crews 1
 day_p29   cost 156 day_d02 1
 day_p29   day_d11 1 day_d17 1
 day_p29   day_d18 1 day_d19 1
 day_p29   day_d23 1 day_d28 1
 day_p29   hall_east 1 crews 1
 day_p30   cost 139 day_d02 1
 day_p30   day_d04 1 day_d07 1
 day_p30   day_d11 1 day_d17 1
 day_p30   day_d18 1 day_d23 1
 day_p30   day_d28 1 day_d29 1
 day_p30   day_d32 1 hall_east 1
 day_p30   crews 1
 night_p01 cost 207 night_d03 1
 night_p01 night_d08 1 night_d09 1
 night_p01 night_d12 1 night_d14 1
 night_p01 night_d15 1 night_d18 1
 night_p01 night_d21 1 night_d25 1
 night_p01 night_d26 1 night_d29 1
 night_p01 night_d31 1 hall_east 1
 night_p01 night_crews 1 crews 1
 night_p02 cost 215 night_d02 1
 night_p02 night_d04 1 night_d07 1
 night_p02 night_d11 1 night_d17 1
 night_p02 night_d18 1 night_d23 1
 night_p02 night_d27 1 night_d28 1
 night_p02 night_d32 1 hall_east 1
 night_p02 night_crews 1 crews 1
 night_p03 cost 218 night_d03 1
 night_p03 night_d08 1 night_d09 1
 night_p03 night_d12 1 night_d14 1
 night_p03 night_d15 1 night_d21 1
 night_p03 night_d25 1 night_d31 1
 night_p03 hall_east 1 night_crews 1
 night_p03 crews 1
 night_p04 cost 203 night_d01 1
 night_p04 night_d04 1 night_d06 1
 night_p04 night_d07 1 night_d10 1
 night_p04 night_d16 1 night_d17 1
 night_p04 night_d20 1 night_d22 1
 night_p04 night_d24 1 night_d28 1
 night_p04 night_d30 1 night_d32 1
 night_p04 night_crews 1 crews 1
 night_p05 cost 215 night_d02 1
 night_p05 night_d03 1 night_d09 1
 night_p05 night_d11 1 night_d12 1
 night_p05 night_d15 1 night_d17 1
 night_p05 night_d18 1 night_d19 1
 night_p05 night_d21 1 night_d23 1
 night_p05 night_d25 1 night_d28 1
 night_p05 night_d29 1 night_d32 1
 night_p05 hall_east 1 night_crews 1
 night_p05 crews 1
 night_p06 cost 205 night_d02 1
 night_p06 night_d03 1 night_d08 1
 night_p06 night_d09 1 night_d11 1
 night_p06 night_d12 1 night_d14 1
 night_p06 night_d15 1 night_d18 1
 night_p06 night_d19 1 night_d21 1
 night_p06 night_d23 1 night_d25 1
 night_p06 night_d26 1 night_d29 1
 night_p06 night_d31 1 hall_east 1
 night_p06 night_crews 1 crews 1
 night_p07 cost 212 night_d01 1
 night_p07 night_d04 1 night_d06 1
 night_p07 night_d10 1 night_d13 1
 night_p07 night_d16 1 night_d20 1
 night_p07 night_d24 1 night_d30 1
 night_p07 night_crews 1 crews 1
 night_p08 cost 225 night_d02 1
 night_p08 night_d03 1 night_d09 1
 night_p08 night_d11 1 night_d12 1
 night_p08 night_d15 1 night_d17 1
 night_p08 night_d18 1 night_d19 1
 night_p08 night_d21 1 night_d23 1
 night_p08 night_d25 1 night_d28 1
 night_p08 night_d29 1 night_d32 1
 night_p08 hall_east 1 night_crews 1
 night_p08 crews 1
 night_p09 cost 191 night_d04 1
 night_p09 night_d10 1 night_d16 1
 night_p09 night_d22 1 night_crews 1
 night_p09 crews 1
 night_p10 cost 216 night_d02 1
 night_p10 night_d11 1 night_d19 1
 night_p10 night_d25 1 night_d26 1
 night_p10 hall_east 1 night_crews 1
 night_p10 crews 1
 night_p11 cost 209 night_d01 1
 night_p11 night_d04 1 night_d06 1
 night_p11 night_d10 1 night_d16 1
 night_p11 night_d20 1 night_d22 1
 night_p11 night_d30 1 night_crews 1
 night_p11 crews 1
 night_p12 cost 187 night_d01 1
 night_p12 night_d04 1 night_d06 1
 night_p12 night_d07 1 night_d10 1
 night_p12 night_d13 1 night_d20 1
 night_p12 night_d24 1 night_d30 1
 night_p12 night_crews 1 crews 1
 night_p13 cost 207 night_d02 1
 night_p13 night_d04 1 night_d07 1
 night_p13 night_d10 1 night_d11 1
 night_p13 night_d15 1 night_d16 1
 night_p13 night_d17 1 night_d18 1
 night_p13 night_d23 1 night_d28 1
 night_p13 night_d29 1 night_d32 1
 night_p13 night_crews 1 crews 1
 night_p14 cost 234 night_d02 1
 night_p14 night_d03 1 night_d04 1
 night_p14 night_d09 1 night_d11 1
 night_p14 night_d12 1 night_d15 1
 night_p14 night_d16 1 night_d17 1
 night_p14 night_d18 1 night_d21 1
 night_p14 night_d23 1 night_d28 1
 night_p14 night_d29 1 night_d32 1
 night_p14 hall_east 1 night_crews 1
 night_p14 crews 1
 night_p15 cost 183 night_d02 1
 night_p15 night_d03 1 night_d08 1
 night_p15 night_d09 1 night_d11 1
 night_p15 night_d12 1 night_d14 1
 night_p15 night_d18 1 night_d19 1
 night_p15 night_d21 1 night_d23 1
 night_p15 night_d25 1 night_d26 1
 night_p15 night_d29 1 night_d31 1
 night_p15 hall_east 1 night_crews 1
 night_p15 crews 1
 night_p16 cost 236 night_d02 1
 night_p16 night_d03 1 night_d05 1
 night_p16 night_d08 1 night_d09 1
 night_p16 night_d11 1 night_d12 1
 night_p16 night_d15 1 night_d17 1
 night_p16 night_d18 1 night_d19 1
 night_p16 night_d21 1 night_d23 1
 night_p16 night_d25 1 night_d28 1
 night_p16 night_d29 1 night_d32 1
 night_p16 hall_east 1 night_crews 1
 night_p16 crews 1
 night_p17 cost 181 night_d02 1
 night_p17 night_d03 1 night_d08 1
 night_p17 night_d11 1 night_d12 1
 night_p17 night_d14 1 night_d18 1
 night_p17 night_d19 1 night_d21 1
 night_p17 night_d23 1 night_d25 1
 night_p17 night_d26 1 hall_east 1
 night_p17 night_crews 1 crews 1
 night_p18 cost 209 night_d02 1
 night_p18 night_d11 1 night_d12 1
 night_p18 night_d17 1 night_d18 1
 night_p18 night_d19 1 night_d21 1
 night_p18 night_d23 1 night_d25 1
 night_p18 night_d26 1 hall_east 1
 night_p18 night_crews 1 crews 1
 night_p19 cost 215 night_d01 1
 night_p19 night_d04 1 night_d06 1
 night_p19 night_d07 1 night_d10 1
 night_p19 night_d16 1 night_d20 1
 night_p19 night_d22 1 night_d24 1
 night_p19 night_d28 1 night_d30 1
 night_p19 night_d32 1 night_crews 1
 night_p19 crews 1
 night_p20 cost 185 night_d02 1
 night_p20 night_d08 1 night_d11 1
 night_p20 night_d12 1 night_d14 1
 night_p20 night_d19 1 night_d25 1
 night_p20 night_d26 1 night_d31 1
 night_p20 hall_east 1 night_crews 1
 night_p20 crews 1
 night_p21 cost 184 night_d07 1
 night_p21 night_d17 1 night_d27 1
 night_p21 hall_east 1 night_crews 1
 night_p21 crews 1
 night_p22 cost 203 night_d03 1
 night_p22 night_d05 1 night_d09 1
 night_p22 night_d12 1 night_d15 1
 night_p22 night_d18 1 night_d21 1
 night_p22 night_d29 1 night_crews 1
 night_p22 crews 1
 night_p23 cost 186 night_d03 1
 night_p23 night_d08 1 night_d09 1
 night_p23 night_d12 1 night_d14 1
 night_p23 night_d15 1 night_d21 1
 night_p23 night_d25 1 night_d31 1
 night_p23 hall_east 1 night_crews 1
 night_p23 crews 1
 night_p24 cost 190 night_d05 1
 night_p24 night_d15 1 night_d16 1
 night_p24 night_d18 1 night_d22 1
 night_p24 night_d28 1 night_d29 1
 night_p24 night_d32 1 night_crews 1
 night_p24 crews 1
 night_p25 cost 187 night_d04 1
 night_p25 night_d10 1 night_d16 1
 night_p25 night_d22 1 night_d28 1
 night_p25 night_d32 1 night_crews 1
 night_p25 crews 1
 night_p26 cost 219 night_d02 1
 night_p26 night_d03 1 night_d11 1
 night_p26 night_d12 1 night_d15 1
 night_p26 night_d17 1 night_d18 1
 night_p26 night_d19 1 night_d21 1
 night_p26 night_d23 1 night_d25 1
 night_p26 night_d28 1 night_d29 1
 night_p26 night_d32 1 hall_east 1
 night_p26 night_crews 1 crews 1
 night_p27 cost 210 night_d02 1
 night_p27 night_d08 1 night_d11 1
 night_p27 night_d12 1 night_d14 1
 night_p27 night_d19 1 night_d25 1
 night_p27 night_d26 1 night_d31 1
 night_p27 hall_east 1 night_crews 1
 night_p27 crews 1
 night_p28 cost 234 night_d07 1
 night_p28 night_d13 1 night_d20 1
 night_p28 night_d24 1 night_d27 1
 night_p28 night_crews 1 crews 1
 night_p29 cost 232 night_d02 1
 night_p29 night_d11 1 night_d17 1
 night_p29 night_d18 1 night_d19 1
 night_p29 night_d23 1 night_d28 1
 night_p29 hall_east 1 night_crews 1
 night_p29 crews 1
 night_p30 cost 212 night_d02 1
 night_p30 night_d04 1 night_d07 1
 night_p30 night_d11 1 night_d17 1
 night_p30 night_d18 1 night_d23 1
 night_p30 night_d28 1 night_d29 1
 night_p30 night_d32 1 hall_east 1
 night_p30 night_crews 1 crews 1
 M 'MARKER' 'INTEND'
RHS
 rhs day_d01 1
 rhs day_d02 2
 rhs day_d03 2
 rhs day_d04 2
 rhs day_d05 1
 rhs day_d06 1
 rhs day_d07 2
 rhs day_d08 1
 rhs day_d09 1
 rhs day_d10 1
 rhs day_d11 1
 rhs day_d12 2
 rhs day_d13 1
 rhs day_d14 1
 rhs day_d15 1
 rhs day_d16 2
 rhs day_d17 1
 rhs day_d18 1
 rhs day_d19 1
 rhs day_d20 1
 rhs day_d21 1
 rhs day_d22 2
 rhs day_d23 1
 rhs day_d24 1
 rhs day_d25 1
 rhs day_d26 1
 rhs day_d27 1
 rhs day_d28 2
 rhs day_d29 1
 rhs day_d30 2
 rhs day_d31 1
 rhs day_d32 1
 rhs night_d01 1
 rhs night_d02 1
 rhs night_d03 1
 rhs night_d04 1
 rhs night_d05 1
 rhs night_d06 1
 rhs night_d07 1
 rhs night_d08 1
 rhs night_d09 1
 rhs night_d10 1
 rhs night_d11 1
 rhs night_d12 1
 rhs night_d13 1
 rhs night_d14 1
 rhs night_d15 1
 rhs night_d16 1
 rhs night_d17 1
 rhs night_d18 1
 rhs night_d19 1
 rhs night_d20 1
 rhs night_d21 1
 rhs night_d22 1
 rhs night_d23 1
 rhs night_d24 1
 rhs night_d25 1
 rhs night_d26 1
 rhs night_d27 1
 rhs night_d28 1
 rhs night_d29 1
 rhs night_d30 1
 rhs night_d31 1
 rhs night_d32 1
 rhs hall_east 3
 rhs night_crews 5
 rhs crews 11
BOUNDS
 UP bnd day_p01 2
 UP bnd day_p02 2
 UP bnd day_p03 2
 UP bnd day_p04 2
 UP bnd day_p05 2
 UP bnd day_p06 2
 UP bnd day_p07 2
 UP bnd day_p08 2
 UP bnd day_p09 2
 UP bnd day_p10 2
 UP bnd day_p11 2
 UP bnd day_p12 2
 UP bnd day_p13 2
 UP bnd day_p14 2
 UP bnd day_p15 2
 UP bnd day_p16 2
 UP bnd day_p17 2
 UP bnd day_p18 2
 UP bnd day_p19 2
 UP bnd day_p20 2
 UP bnd day_p21 2
 UP bnd day_p22 2
 UP bnd day_p23 2
 UP bnd day_p24 2
 UP bnd day_p25 2
 UP bnd day_p26 2
 UP bnd day_p27 2
 UP bnd day_p28 2
 UP bnd day_p29 2
 UP bnd day_p30 2
 UP bnd night_p01 1
 UP bnd night_p02 1
 UP bnd night_p03 1
 UP bnd night_p04 1
 UP bnd night_p05 1
 UP bnd night_p06 1
 UP bnd night_p07 1
 UP bnd night_p08 1
 UP bnd night_p09 1
 UP bnd night_p10 1
 UP bnd night_p11 1
 UP bnd night_p12 1
 UP bnd night_p13 1
 UP bnd night_p14 1
 UP bnd night_p15 1
 UP bnd night_p16 1
 UP bnd night_p17 1
 UP bnd night_p18 1
 UP bnd night_p19 1
 UP bnd night_p20 1
 UP bnd night_p21 1
 UP bnd night_p22 1
 UP bnd night_p23 1
 UP bnd night_p24 1
 UP bnd night_p25 1
 UP bnd night_p26 1
 UP bnd night_p27 1
 UP bnd night_p28 1
 UP bnd night_p29 1
 UP bnd night_p30 1
ENDATA
