/* registers.c: reads maps of 256 bytes on standard input and prints each register by its helper, a line a map: in counts, then in units with nine digits. */
#include <stdio.h>
#include <trovimbe.h>

#define COUNT(name) printf("%ld ", (long)trovimbe_##name(map))
#define UNIT(name) printf("%.9g ", trovimbe_##name(map))
#define VOLTS(name) printf("%.9g %.9g ", trovimbe_##name(map, TROVIMBE_DS2781), trovimbe_##name(map, TROVIMBE_DS2775))

int main(void) {
    uint8_t map[TROVIMBE_MAP_SIZE];
    while (fread(map, 1, sizeof map, stdin) == sizeof map) {
        COUNT(chgtf), COUNT(aef), COUNT(sef), COUNT(learnf), COUNT(porf), COUNT(raac), COUNT(rsac), COUNT(rarc), COUNT(rsrc), COUNT(iavg), COUNT(temp);
        COUNT(volt), COUNT(current), COUNT(acr), COUNT(acrl), COUNT(as), COUNT(full), COUNT(ae), COUNT(se), COUNT(cycles), COUNT(lock), COUNT(bl1), COUNT(bl0);
        COUNT(nben), COUNT(rnaop), COUNT(ab), COUNT(ac), COUNT(vchg), COUNT(imin), COUNT(vae), COUNT(iae), COUNT(ae40), COUNT(rsnsp), COUNT(full40);
        COUNT(rsgain), COUNT(rstc), COUNT(cob), COUNT(tbp34), COUNT(tbp23), COUNT(tbp12);
        printf("%td %td %td %td ", trovimbe_label(map) - map, trovimbe_full_slopes(map) - map, trovimbe_ae_slopes(map) - map, trovimbe_se_slopes(map) - map);
        UNIT(rsns_mohm), UNIT(raac_mah), UNIT(rsac_mah), UNIT(iavg_ma), UNIT(temp_c), VOLTS(volt_v), UNIT(current_ma), UNIT(acr_mah), UNIT(as_percent);
        UNIT(full_percent), UNIT(ae_percent), UNIT(se_percent), UNIT(ab_ma), UNIT(ac_mah), VOLTS(vchg_v), UNIT(imin_ma), VOLTS(vae_v), UNIT(iae_ma);
        UNIT(ae40_percent), UNIT(full40_mah), UNIT(cob_ma);
        printf("\n");
    }
    return 0;
}
