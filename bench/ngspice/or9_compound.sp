* domsyn deck 1
* phase o_y +
.subckt or9 vdd vss ck1 lm lmb ls lsb rs rsb
+ i_a i_b i_c i_d i_e i_f i_g i_h
+ i_i
+ o_y
m0 d0 ck1 vdd vdd pch
m1 d0 i_a f0 vss nch
m2 d0 i_b f0 vss nch
m3 d0 i_c f0 vss nch
m4 d0 i_d f0 vss nch
m5 d0 i_e f0 vss nch
m6 f0 ck1 vss vss nch
m7 e0 ck1 vdd vdd pch
m8 e0 i_f g0 vss nch
m9 e0 i_g g0 vss nch
m10 e0 i_h g0 vss nch
m11 e0 i_i g0 vss nch
m12 g0 ck1 vss vss nch
m13 z0 d0 vdd vdd pch
m14 z0 e0 vdd vdd pch
m15 z0 d0 z0_n0 vss nch
m16 z0_n0 e0 vss vss nch
m17 o_y d0 vdd vdd pch
m18 o_y e0 vdd vdd pch
m19 o_y d0 o_y_n0 vss nch
m20 o_y_n0 e0 vss vss nch
.ends or9
