* domsyn deck 1
* phase o_f +
.subckt rows vdd vss ck1 lm lmb ls lsb rs rsb
+ i_a0 i_a1 i_a2 i_a3 i_b0 i_b1 i_b2 i_b3
+ i_c0 i_c1 i_c2 i_c3 i_e0 i_e1 i_e2 i_e3
+ o_f
m0 d0 ck1 vdd vdd pch
m1 t0_0 ck1 vdd vdd pch
m2 t0_1 ck1 vdd vdd pch
m3 t0_2 ck1 vdd vdd pch
m4 t0_3 ck1 vdd vdd pch
m5 t0_4 ck1 vdd vdd pch
m6 t0_5 ck1 vdd vdd pch
m7 t0_6 ck1 vdd vdd pch
m8 t0_7 ck1 vdd vdd pch
m9 t0_8 ck1 vdd vdd pch
m10 t0_9 ck1 vdd vdd pch
m11 t0_10 ck1 vdd vdd pch
m12 t0_11 ck1 vdd vdd pch
m13 d0 i_a0 t0_1 vss nch
m14 t0_1 i_a1 t0_0 vss nch
m15 t0_0 i_a2 t0_2 vss nch
m16 t0_2 i_a3 f0 vss nch
m17 d0 i_b0 t0_4 vss nch
m18 t0_4 i_b1 t0_3 vss nch
m19 t0_3 i_b2 t0_5 vss nch
m20 t0_5 i_b3 f0 vss nch
m21 d0 i_c0 t0_7 vss nch
m22 t0_7 i_c1 t0_6 vss nch
m23 t0_6 i_c2 t0_8 vss nch
m24 t0_8 i_c3 f0 vss nch
m25 d0 i_e0 t0_10 vss nch
m26 t0_10 i_e1 t0_9 vss nch
m27 t0_9 i_e2 t0_11 vss nch
m28 t0_11 i_e3 f0 vss nch
m29 f0 ck1 vss vss nch
m30 z0 d0 vdd vdd pch
m31 z0 d0 vss vss nch
m32 o_f d0 vdd vdd pch
m33 o_f d0 vss vss nch
.ends rows
