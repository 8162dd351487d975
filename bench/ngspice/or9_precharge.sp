* domsyn deck 1
* phase o_y +
.subckt or9 vdd vss ck1 lm lmb ls lsb rs rsb
+ i_a i_b i_c i_d i_e i_f i_g i_h
+ i_i
+ o_y
m0 d0 ck1 vdd vdd pch
m1 d0 i_a f0 vss nch
m2 d0 i_b f0 vss nch
m3 d0 i_c f0 vss nch
m4 d0 i_d f0 vss nch
m5 d0 i_e f0 vss nch
m6 f0 ck1 vss vss nch
m7 z0 d0 vdd vdd pch
m8 z0 d0 vss vss nch
m9 d1 ck1 vdd vdd pch
m10 d1 z0 f1 vss nch
m11 d1 i_f f1 vss nch
m12 d1 i_g f1 vss nch
m13 d1 i_h f1 vss nch
m14 d1 i_i f1 vss nch
m15 f1 ck1 vss vss nch
m16 z1 d1 vdd vdd pch
m17 z1 d1 vss vss nch
m18 o_y d1 vdd vdd pch
m19 o_y d1 vss vss nch
.ends or9
