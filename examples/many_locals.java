// Storing to residuals[used] faults: the flight keeps no residuals, so the parameter kept is null, and with it the local residuals.
// The case holds the method spread, compiled with -g: the fault at index 3138 (dastore), the method sqrt, 309 local records.
// The source is as a generator writes it: the loop over a hundred readings is unrolled. Its locals take 311 slots, and those above 255
// are reached by wide. Document 01's walk gives up at the first wide, the store of z84 at index 1647; the full one walks all 1,832
// instructions and names residuals, slot 305.
class UnrolledFit {
    static double spread(float[] m, double[] kept) {
        float x0 = m[0], y0 = m[1], z0 = m[2], x1 = m[3], y1 = m[4], z1 = m[5];
        float x2 = m[6], y2 = m[7], z2 = m[8], x3 = m[9], y3 = m[10], z3 = m[11];
        float x4 = m[12], y4 = m[13], z4 = m[14], x5 = m[15], y5 = m[16], z5 = m[17];
        float x6 = m[18], y6 = m[19], z6 = m[20], x7 = m[21], y7 = m[22], z7 = m[23];
        float x8 = m[24], y8 = m[25], z8 = m[26], x9 = m[27], y9 = m[28], z9 = m[29];
        float x10 = m[30], y10 = m[31], z10 = m[32], x11 = m[33], y11 = m[34], z11 = m[35];
        float x12 = m[36], y12 = m[37], z12 = m[38], x13 = m[39], y13 = m[40], z13 = m[41];
        float x14 = m[42], y14 = m[43], z14 = m[44], x15 = m[45], y15 = m[46], z15 = m[47];
        float x16 = m[48], y16 = m[49], z16 = m[50], x17 = m[51], y17 = m[52], z17 = m[53];
        float x18 = m[54], y18 = m[55], z18 = m[56], x19 = m[57], y19 = m[58], z19 = m[59];
        float x20 = m[60], y20 = m[61], z20 = m[62], x21 = m[63], y21 = m[64], z21 = m[65];
        float x22 = m[66], y22 = m[67], z22 = m[68], x23 = m[69], y23 = m[70], z23 = m[71];
        float x24 = m[72], y24 = m[73], z24 = m[74], x25 = m[75], y25 = m[76], z25 = m[77];
        float x26 = m[78], y26 = m[79], z26 = m[80], x27 = m[81], y27 = m[82], z27 = m[83];
        float x28 = m[84], y28 = m[85], z28 = m[86], x29 = m[87], y29 = m[88], z29 = m[89];
        float x30 = m[90], y30 = m[91], z30 = m[92], x31 = m[93], y31 = m[94], z31 = m[95];
        float x32 = m[96], y32 = m[97], z32 = m[98], x33 = m[99], y33 = m[100], z33 = m[101];
        float x34 = m[102], y34 = m[103], z34 = m[104], x35 = m[105], y35 = m[106], z35 = m[107];
        float x36 = m[108], y36 = m[109], z36 = m[110], x37 = m[111], y37 = m[112], z37 = m[113];
        float x38 = m[114], y38 = m[115], z38 = m[116], x39 = m[117], y39 = m[118], z39 = m[119];
        float x40 = m[120], y40 = m[121], z40 = m[122], x41 = m[123], y41 = m[124], z41 = m[125];
        float x42 = m[126], y42 = m[127], z42 = m[128], x43 = m[129], y43 = m[130], z43 = m[131];
        float x44 = m[132], y44 = m[133], z44 = m[134], x45 = m[135], y45 = m[136], z45 = m[137];
        float x46 = m[138], y46 = m[139], z46 = m[140], x47 = m[141], y47 = m[142], z47 = m[143];
        float x48 = m[144], y48 = m[145], z48 = m[146], x49 = m[147], y49 = m[148], z49 = m[149];
        float x50 = m[150], y50 = m[151], z50 = m[152], x51 = m[153], y51 = m[154], z51 = m[155];
        float x52 = m[156], y52 = m[157], z52 = m[158], x53 = m[159], y53 = m[160], z53 = m[161];
        float x54 = m[162], y54 = m[163], z54 = m[164], x55 = m[165], y55 = m[166], z55 = m[167];
        float x56 = m[168], y56 = m[169], z56 = m[170], x57 = m[171], y57 = m[172], z57 = m[173];
        float x58 = m[174], y58 = m[175], z58 = m[176], x59 = m[177], y59 = m[178], z59 = m[179];
        float x60 = m[180], y60 = m[181], z60 = m[182], x61 = m[183], y61 = m[184], z61 = m[185];
        float x62 = m[186], y62 = m[187], z62 = m[188], x63 = m[189], y63 = m[190], z63 = m[191];
        float x64 = m[192], y64 = m[193], z64 = m[194], x65 = m[195], y65 = m[196], z65 = m[197];
        float x66 = m[198], y66 = m[199], z66 = m[200], x67 = m[201], y67 = m[202], z67 = m[203];
        float x68 = m[204], y68 = m[205], z68 = m[206], x69 = m[207], y69 = m[208], z69 = m[209];
        float x70 = m[210], y70 = m[211], z70 = m[212], x71 = m[213], y71 = m[214], z71 = m[215];
        float x72 = m[216], y72 = m[217], z72 = m[218], x73 = m[219], y73 = m[220], z73 = m[221];
        float x74 = m[222], y74 = m[223], z74 = m[224], x75 = m[225], y75 = m[226], z75 = m[227];
        float x76 = m[228], y76 = m[229], z76 = m[230], x77 = m[231], y77 = m[232], z77 = m[233];
        float x78 = m[234], y78 = m[235], z78 = m[236], x79 = m[237], y79 = m[238], z79 = m[239];
        float x80 = m[240], y80 = m[241], z80 = m[242], x81 = m[243], y81 = m[244], z81 = m[245];
        float x82 = m[246], y82 = m[247], z82 = m[248], x83 = m[249], y83 = m[250], z83 = m[251];
        float x84 = m[252], y84 = m[253], z84 = m[254], x85 = m[255], y85 = m[256], z85 = m[257];
        float x86 = m[258], y86 = m[259], z86 = m[260], x87 = m[261], y87 = m[262], z87 = m[263];
        float x88 = m[264], y88 = m[265], z88 = m[266], x89 = m[267], y89 = m[268], z89 = m[269];
        float x90 = m[270], y90 = m[271], z90 = m[272], x91 = m[273], y91 = m[274], z91 = m[275];
        float x92 = m[276], y92 = m[277], z92 = m[278], x93 = m[279], y93 = m[280], z93 = m[281];
        float x94 = m[282], y94 = m[283], z94 = m[284], x95 = m[285], y95 = m[286], z95 = m[287];
        float x96 = m[288], y96 = m[289], z96 = m[290], x97 = m[291], y97 = m[292], z97 = m[293];
        float x98 = m[294], y98 = m[295], z98 = m[296], x99 = m[297], y99 = m[298], z99 = m[299];
        float x = x0 + x1 + x2 + x3 + x4 + x5 + x6 + x7 + x8 + x9 + x10 + x11 + x12 + x13 + x14 + x15 + x16 + x17
                + x18 + x19 + x20 + x21 + x22 + x23 + x24 + x25 + x26 + x27 + x28 + x29 + x30 + x31 + x32 + x33
                + x34 + x35 + x36 + x37 + x38 + x39 + x40 + x41 + x42 + x43 + x44 + x45 + x46 + x47 + x48 + x49
                + x50 + x51 + x52 + x53 + x54 + x55 + x56 + x57 + x58 + x59 + x60 + x61 + x62 + x63 + x64 + x65
                + x66 + x67 + x68 + x69 + x70 + x71 + x72 + x73 + x74 + x75 + x76 + x77 + x78 + x79 + x80 + x81
                + x82 + x83 + x84 + x85 + x86 + x87 + x88 + x89 + x90 + x91 + x92 + x93 + x94 + x95 + x96 + x97
                + x98 + x99;
        float y = y0 + y1 + y2 + y3 + y4 + y5 + y6 + y7 + y8 + y9 + y10 + y11 + y12 + y13 + y14 + y15 + y16 + y17
                + y18 + y19 + y20 + y21 + y22 + y23 + y24 + y25 + y26 + y27 + y28 + y29 + y30 + y31 + y32 + y33
                + y34 + y35 + y36 + y37 + y38 + y39 + y40 + y41 + y42 + y43 + y44 + y45 + y46 + y47 + y48 + y49
                + y50 + y51 + y52 + y53 + y54 + y55 + y56 + y57 + y58 + y59 + y60 + y61 + y62 + y63 + y64 + y65
                + y66 + y67 + y68 + y69 + y70 + y71 + y72 + y73 + y74 + y75 + y76 + y77 + y78 + y79 + y80 + y81
                + y82 + y83 + y84 + y85 + y86 + y87 + y88 + y89 + y90 + y91 + y92 + y93 + y94 + y95 + y96 + y97
                + y98 + y99;
        float z = z0 + z1 + z2 + z3 + z4 + z5 + z6 + z7 + z8 + z9 + z10 + z11 + z12 + z13 + z14 + z15 + z16 + z17
                + z18 + z19 + z20 + z21 + z22 + z23 + z24 + z25 + z26 + z27 + z28 + z29 + z30 + z31 + z32 + z33
                + z34 + z35 + z36 + z37 + z38 + z39 + z40 + z41 + z42 + z43 + z44 + z45 + z46 + z47 + z48 + z49
                + z50 + z51 + z52 + z53 + z54 + z55 + z56 + z57 + z58 + z59 + z60 + z61 + z62 + z63 + z64 + z65
                + z66 + z67 + z68 + z69 + z70 + z71 + z72 + z73 + z74 + z75 + z76 + z77 + z78 + z79 + z80 + z81
                + z82 + z83 + z84 + z85 + z86 + z87 + z88 + z89 + z90 + z91 + z92 + z93 + z94 + z95 + z96 + z97
                + z98 + z99;
        double[] residuals = kept;
        int used = 0;
        long steps = 100;
        double square = (double) x * x + (double) y * y + (double) z * z;
        used++;
        residuals[used] = Math.sqrt(square) / steps;
        return residuals[used] - residuals[0];
    }
}
