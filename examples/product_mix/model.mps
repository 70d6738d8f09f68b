* A dairy fills batches of fifteen products on the lines A, B and C. Values are in 10 euros.
NAME product_mix
OBJSENSE
    MAX
ROWS
 N margin
 L line_A
 L line_B
 L line_C
 L milk_loads
 L sold_milk
 L sold_buttermilk
 L sold_cream
 L sold_kefir
 L sold_yogurt_plain
 L sold_yogurt_berry
 L sold_yogurt_vanilla
 L sold_quark
 L sold_quark_herbs
 L sold_pudding
 L sold_custard
 L sold_dessert
 L sold_butter
 L sold_drink_cocoa
 L sold_drink_coffee
 G contract_milk
COLUMNS
 M 'MARKER' 'INTORG'
 milk_A           margin 80 line_A 1
 milk_A           milk_loads 2 sold_milk 1
 milk_A           contract_milk 1
 milk_B           margin 77 line_B 1
 milk_B           milk_loads 2 sold_milk 1
 milk_B           contract_milk 1
 buttermilk_A     margin 97 line_A 1
 buttermilk_A     milk_loads 2 sold_buttermilk 1
 buttermilk_B     margin 91 line_B 1
 buttermilk_B     milk_loads 2 sold_buttermilk 1
 cream_A          margin 179 line_A 1
 cream_A          milk_loads 3 sold_cream 1
 cream_B          margin 167 line_B 1
 cream_B          milk_loads 3 sold_cream 1
 kefir_A          margin 115 line_A 1
 kefir_A          milk_loads 2 sold_kefir 1
 kefir_B          margin 107 line_B 1
 kefir_B          milk_loads 2 sold_kefir 1
 yogurt_plain_A   margin 126 line_A 1
 yogurt_plain_A   milk_loads 2 sold_yogurt_plain 1
 yogurt_plain_B   margin 123 line_B 1
 yogurt_plain_B   milk_loads 2 sold_yogurt_plain 1
 yogurt_plain_C   margin 112 line_C 1
 yogurt_plain_C   milk_loads 2 sold_yogurt_plain 1
 yogurt_berry_A   margin 148 line_A 1
 yogurt_berry_A   milk_loads 2 sold_yogurt_berry 1
 yogurt_berry_B   margin 144 line_B 1
 yogurt_berry_B   milk_loads 2 sold_yogurt_berry 1
 yogurt_berry_C   margin 134 line_C 1
 yogurt_berry_C   milk_loads 2 sold_yogurt_berry 1
 yogurt_vanilla_A margin 145 line_A 1
 yogurt_vanilla_A milk_loads 2 sold_yogurt_vanilla 1
 yogurt_vanilla_B margin 134 line_B 1
 yogurt_vanilla_B milk_loads 2 sold_yogurt_vanilla 1
 yogurt_vanilla_C margin 125 line_C 1
 yogurt_vanilla_C milk_loads 2 sold_yogurt_vanilla 1
 quark_B          margin 132 line_B 1
 quark_B          milk_loads 3 sold_quark 1
 quark_C          margin 121 line_C 1
 quark_C          milk_loads 3 sold_quark 1
 quark_herbs_B    margin 155 line_B 1
 quark_herbs_B    milk_loads 3 sold_quark_herbs 1
 quark_herbs_C    margin 144 line_C 1
 quark_herbs_C    milk_loads 3 sold_quark_herbs 1
 pudding_B        margin 126 line_B 1
 pudding_B        milk_loads 1 sold_pudding 1
 pudding_C        margin 119 line_C 1
 pudding_C        milk_loads 1 sold_pudding 1
 custard_B        margin 111 line_B 1
 custard_B        milk_loads 1 sold_custard 1
 custard_C        margin 103 line_C 1
 custard_C        milk_loads 1 sold_custard 1
 dessert_C        margin 149 line_C 1
 dessert_C        milk_loads 2 sold_dessert 1
 butter_C         margin 180 line_C 1
 butter_C         milk_loads 4 sold_butter 1
 drink_cocoa_A    margin 122 line_A 1
 drink_cocoa_A    milk_loads 1 sold_drink_cocoa 1
 drink_cocoa_B    margin 115 line_B 1
 drink_cocoa_B    milk_loads 1 sold_drink_cocoa 1
 drink_coffee_A   margin 130 line_A 1
 drink_coffee_A   milk_loads 1 sold_drink_coffee 1
 drink_coffee_B   margin 125 line_B 1
 drink_coffee_B   milk_loads 1 sold_drink_coffee 1
 M 'MARKER' 'INTEND'
RHS
 rhs line_A 26
 rhs line_B 24
 rhs line_C 22
 rhs milk_loads 126
 rhs sold_milk 14
 rhs sold_buttermilk 5
 rhs sold_cream 6
 rhs sold_kefir 5
 rhs sold_yogurt_plain 9
 rhs sold_yogurt_berry 8
 rhs sold_yogurt_vanilla 7
 rhs sold_quark 8
 rhs sold_quark_herbs 5
 rhs sold_pudding 7
 rhs sold_custard 5
 rhs sold_dessert 4
 rhs sold_butter 6
 rhs sold_drink_cocoa 9
 rhs sold_drink_coffee 6
 rhs contract_milk 6
BOUNDS
 UP bnd milk_A 14
 UP bnd milk_B 14
 UP bnd buttermilk_A 5
 UP bnd buttermilk_B 5
 UP bnd cream_A 6
 UP bnd cream_B 6
 UP bnd kefir_A 5
 UP bnd kefir_B 5
 UP bnd yogurt_plain_A 9
 UP bnd yogurt_plain_B 9
 UP bnd yogurt_plain_C 9
 UP bnd yogurt_berry_A 8
 UP bnd yogurt_berry_B 8
 UP bnd yogurt_berry_C 8
 UP bnd yogurt_vanilla_A 7
 UP bnd yogurt_vanilla_B 7
 UP bnd yogurt_vanilla_C 7
 UP bnd quark_B 8
 UP bnd quark_C 8
 UP bnd quark_herbs_B 5
 UP bnd quark_herbs_C 5
 UP bnd pudding_B 7
 UP bnd pudding_C 7
 UP bnd custard_B 5
 UP bnd custard_C 5
 UP bnd dessert_C 4
 UP bnd butter_C 6
 UP bnd drink_cocoa_A 9
 UP bnd drink_cocoa_B 9
 UP bnd drink_coffee_A 6
 UP bnd drink_coffee_B 6
ENDATA
