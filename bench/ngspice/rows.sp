* domsyn deck 1
* phase o_f +
.subckt rows vdd vss ck1 lm lmb ls lsb rs rsb
+ i_a0 i_a1 i_a2 i_a3 i_b0 i_b1 i_b2 i_b3
+ i_c0 i_c1 i_c2 i_c3 i_e0 i_e1 i_e2 i_e3
+ o_f
m0 d0 ck1 vdd vdd pch
m1 d0 z0 vdd vdd pkeep
m2 d0 i_a0 t0_1 vss nch
m3 t0_1 i_a1 t0_0 vss nch
m4 t0_0 i_a2 t0_2 vss nch
m5 t0_2 i_a3 f0 vss nch
m6 d0 i_b0 t0_4 vss nch
m7 t0_4 i_b1 t0_3 vss nch
m8 t0_3 i_b2 t0_5 vss nch
m9 t0_5 i_b3 f0 vss nch
m10 d0 i_c0 t0_7 vss nch
m11 t0_7 i_c1 t0_6 vss nch
m12 t0_6 i_c2 t0_8 vss nch
m13 t0_8 i_c3 f0 vss nch
m14 d0 i_e0 t0_10 vss nch
m15 t0_10 i_e1 t0_9 vss nch
m16 t0_9 i_e2 t0_11 vss nch
m17 t0_11 i_e3 f0 vss nch
m18 f0 ck1 vss vss nch
m19 z0 d0 vdd vdd pch
m20 z0 d0 vss vss nch
m21 o_f d0 vdd vdd pch
m22 o_f d0 vss vss nch
.ends rows
