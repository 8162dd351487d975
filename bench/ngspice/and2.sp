* domsyn deck 1
* phase o_f +
.subckt and2 vdd vss ck1 lm lmb ls lsb rs rsb
+ i_a i_b
+ o_f
m0 d0 ck1 vdd vdd pch
m1 d0 z0 vdd vdd pkeep
m2 d0 i_a t0_0 vss nch
m3 t0_0 i_b f0 vss nch
m4 f0 ck1 vss vss nch
m5 z0 d0 vdd vdd pch
m6 z0 d0 vss vss nch
m7 o_f d0 vdd vdd pch
m8 o_f d0 vss vss nch
.ends and2
