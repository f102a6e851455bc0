.function f,leaf,0,0,1
nop
.block b0
nop
.block b1
nop
.block b2
nop
.block b3
nop
.block b4
nop
.block b5
nop
.block b6
nop
.block b7
nop
.block b8
nop
.block b9
nop
.block b10
nop
.block b11
nop
.block b12
nop
.block b13
nop
.block b14
nop
.block b15
nop
.block b16
nop
.block b17
nop
.block b18
nop
.block b19
nop
.block b20
nop
.block b21
nop
.block b22
nop
.block b23
nop
.block b24
nop
.block b25
nop
.block b26
nop
.block b27
nop
.block b28
nop
.block b29
nop
.block b30
nop
.block b31
nop
.block b32
nop
.block b33
nop
.block b34
nop
.block b35
nop
.block b36
nop
.block b37
nop
.block b38
nop
.block b39
nop
.block b40
nop
.block b41
nop
.block b42
nop
.block b43
nop
.block b44
nop
.block b45
nop
.block b46
nop
.block b47
nop
.block b48
nop
.block b49
nop
.block b50
nop
.block b51
nop
.block b52
nop
.block b53
nop
.block b54
nop
.block b55
nop
.block b56
nop
.block b57
nop
.block b58
nop
.block b59
nop
.block b60
nop
.block b61
nop
.block b62
nop
.block b63
nop
.block b64
nop
.block b65
nop
.block b66
nop
.block b67
nop
.block b68
nop
.block b69
nop
.block b70
nop
.block b71
nop
.block b72
nop
.block b73
nop
.block b74
nop
.block b75
nop
.block b76
nop
.block b77
nop
.block b78
nop
.block b79
nop
.block b80
nop
.block b81
nop
.block b82
nop
.block b83
nop
.block b84
nop
.block b85
nop
.block b86
nop
.block b87
nop
.block b88
nop
.block b89
nop
.block b90
nop
.block b91
nop
.block b92
nop
.block b93
nop
.block b94
nop
.block b95
nop
.block b96
nop
.block b97
nop
.block b98
nop
.block b99
nop
.block b100
nop
.block b101
nop
.block b102
nop
.block b103
nop
.block b104
nop
.block b105
nop
.block b106
nop
.block b107
nop
.block b108
nop
.block b109
nop
.block b110
nop
.block b111
nop
.block b112
nop
.block b113
nop
.block b114
nop
.block b115
nop
.block b116
nop
.block b117
nop
.block b118
nop
.block b119
nop
.block b120
nop
.block b121
nop
.block b122
nop
.block b123
nop
.block b124
nop
.block b125
nop
.block b126
nop
.block b127
nop
.block b128
nop
.block b129
nop
.block b130
nop
.block b131
nop
.block b132
nop
.block b133
nop
.block b134
nop
.block b135
nop
.block b136
nop
.block b137
nop
.block b138
nop
.block b139
nop
.block b140
nop
.block b141
nop
.block b142
nop
.block b143
nop
.block b144
nop
.block b145
nop
.block b146
nop
.block b147
nop
.block b148
nop
.block b149
nop
.block b150
nop
.block b151
nop
.block b152
nop
.block b153
nop
.block b154
nop
.block b155
nop
.block b156
nop
.block b157
nop
.block b158
nop
.block b159
nop
.block b160
nop
.block b161
nop
.block b162
nop
.block b163
nop
.block b164
nop
.block b165
nop
.block b166
nop
.block b167
nop
.block b168
nop
.block b169
nop
.block b170
nop
.block b171
nop
.block b172
nop
.block b173
nop
.block b174
nop
.block b175
nop
.block b176
nop
.block b177
nop
.block b178
nop
.block b179
nop
.block b180
nop
.block b181
nop
.block b182
nop
.block b183
nop
.block b184
nop
.block b185
nop
.block b186
nop
.block b187
nop
.block b188
nop
.block b189
nop
.block b190
nop
.block b191
nop
.block b192
nop
.block b193
nop
.block b194
nop
.block b195
nop
.block b196
nop
.block b197
nop
.block b198
nop
.block b199
nop
.block b200
nop
.block b201
nop
.block b202
nop
.block b203
nop
.block b204
nop
.block b205
nop
.block b206
nop
.block b207
nop
.block b208
nop
.block b209
nop
.block b210
nop
.block b211
nop
.block b212
nop
.block b213
nop
.block b214
nop
.block b215
nop
.block b216
nop
.block b217
nop
.block b218
nop
.block b219
nop
.block b220
nop
.block b221
nop
.block b222
nop
.block b223
nop
.block b224
nop
.block b225
nop
.block b226
nop
.block b227
nop
.block b228
nop
.block b229
nop
.block b230
nop
.block b231
nop
.block b232
nop
.block b233
nop
.block b234
nop
.block b235
nop
.block b236
nop
.block b237
nop
.block b238
nop
.block b239
nop
.block b240
nop
.block b241
nop
.block b242
nop
.block b243
nop
.block b244
nop
.block b245
nop
.block b246
nop
.block b247
nop
.block b248
nop
.block b249
nop
.block b250
nop
.block b251
nop
.block b252
nop
.block b253
nop
.block b254
nop
.block b255
nop
.block b256
nop
.block b257
nop
.block b258
nop
.block b259
nop
.block b260
nop
.block b261
nop
.block b262
nop
.block b263
nop
.block b264
nop
.block b265
nop
.block b266
nop
.block b267
nop
.block b268
nop
.block b269
nop
.block b270
nop
.block b271
nop
.block b272
nop
.block b273
nop
.block b274
nop
.block b275
nop
.block b276
nop
.block b277
nop
.block b278
nop
.block b279
nop
.block b280
nop
.block b281
nop
.block b282
nop
.block b283
nop
.block b284
nop
.block b285
nop
.block b286
nop
.block b287
nop
.block b288
nop
.block b289
nop
.block b290
nop
.block b291
nop
.block b292
nop
.block b293
nop
.block b294
nop
.block b295
nop
.block b296
nop
.block b297
nop
.block b298
nop
.block b299
nop
.block b300
nop
.block b301
nop
.block b302
nop
.block b303
nop
.block b304
nop
.block b305
nop
.block b306
nop
.block b307
nop
.block b308
nop
.block b309
nop
.block b310
nop
.block b311
nop
.block b312
nop
.block b313
nop
.block b314
nop
.block b315
nop
.block b316
nop
.block b317
nop
.block b318
nop
.block b319
nop
.block b320
nop
.block b321
nop
.block b322
nop
.block b323
nop
.block b324
nop
.block b325
nop
.block b326
nop
.block b327
nop
.block b328
nop
.block b329
nop
.block b330
nop
.block b331
nop
.block b332
nop
.block b333
nop
.block b334
nop
.block b335
nop
.block b336
nop
.block b337
nop
.block b338
nop
.block b339
nop
.block b340
nop
.block b341
nop
.block b342
nop
.block b343
nop
.block b344
nop
.block b345
nop
.block b346
nop
.block b347
nop
.block b348
nop
.block b349
nop
.block b350
nop
.block b351
nop
.block b352
nop
.block b353
nop
.block b354
nop
.block b355
nop
.block b356
nop
.block b357
nop
.block b358
nop
.block b359
nop
.block b360
nop
.block b361
nop
.block b362
nop
.block b363
nop
.block b364
nop
.block b365
nop
.block b366
nop
.block b367
nop
.block b368
nop
.block b369
nop
.block b370
nop
.block b371
nop
.block b372
nop
.block b373
nop
.block b374
nop
.block b375
nop
.block b376
nop
.block b377
nop
.block b378
nop
.block b379
nop
.block b380
nop
.block b381
nop
.block b382
nop
.block b383
nop
.block b384
nop
.block b385
nop
.block b386
nop
.block b387
nop
.block b388
nop
.block b389
nop
.block b390
nop
.block b391
nop
.block b392
nop
.block b393
nop
.block b394
nop
.block b395
nop
.block b396
nop
.block b397
nop
.block b398
nop
.block b399
nop
.block b400
nop
.block b401
nop
.block b402
nop
.block b403
nop
.block b404
nop
.block b405
nop
.block b406
nop
.block b407
nop
.block b408
nop
.block b409
nop
.block b410
nop
.block b411
nop
.block b412
nop
.block b413
nop
.block b414
nop
.block b415
nop
.block b416
nop
.block b417
nop
.block b418
nop
.block b419
nop
.block b420
nop
.block b421
nop
.block b422
nop
.block b423
nop
.block b424
nop
.block b425
nop
.block b426
nop
.block b427
nop
.block b428
nop
.block b429
nop
.block b430
nop
.block b431
nop
.block b432
nop
.block b433
nop
.block b434
nop
.block b435
nop
.block b436
nop
.block b437
nop
.block b438
nop
.block b439
nop
.block b440
nop
.block b441
nop
.block b442
nop
.block b443
nop
.block b444
nop
.block b445
nop
.block b446
nop
.block b447
nop
.block b448
nop
.block b449
nop
.block b450
nop
.block b451
nop
.block b452
nop
.block b453
nop
.block b454
nop
.block b455
nop
.block b456
nop
.block b457
nop
.block b458
nop
.block b459
nop
.block b460
nop
.block b461
nop
.block b462
nop
.block b463
nop
.block b464
nop
.block b465
nop
.block b466
nop
.block b467
nop
.block b468
nop
.block b469
nop
.block b470
nop
.block b471
nop
.block b472
nop
.block b473
nop
.block b474
nop
.block b475
nop
.block b476
nop
.block b477
nop
.block b478
nop
.block b479
nop
.block b480
nop
.block b481
nop
.block b482
nop
.block b483
nop
.block b484
nop
.block b485
nop
.block b486
nop
.block b487
nop
.block b488
nop
.block b489
nop
.block b490
nop
.block b491
nop
.block b492
nop
.block b493
nop
.block b494
nop
.block b495
nop
.block b496
nop
.block b497
nop
.block b498
nop
.block b499
nop
.block b500
nop
.block b501
nop
.block b502
nop
.block b503
nop
.block b504
nop
.block b505
nop
.block b506
nop
.block b507
nop
.block b508
nop
.block b509
nop
.block b510
nop
.block b511
nop
.block b512
nop
.block b513
nop
.block b514
nop
.block b515
nop
.block b516
nop
.block b517
nop
.block b518
nop
.block b519
nop
.block b520
nop
.block b521
nop
.block b522
nop
.block b523
nop
.block b524
nop
.block b525
nop
.block b526
nop
.block b527
nop
.block b528
nop
.block b529
nop
.block b530
nop
.block b531
nop
.block b532
nop
.block b533
nop
.block b534
nop
.block b535
nop
.block b536
nop
.block b537
nop
.block b538
nop
.block b539
nop
.block b540
nop
.block b541
nop
.block b542
nop
.block b543
nop
.block b544
nop
.block b545
nop
.block b546
nop
.block b547
nop
.block b548
nop
.block b549
nop
.block b550
nop
.block b551
nop
.block b552
nop
.block b553
nop
.block b554
nop
.block b555
nop
.block b556
nop
.block b557
nop
.block b558
nop
.block b559
nop
.block b560
nop
.block b561
nop
.block b562
nop
.block b563
nop
.block b564
nop
.block b565
nop
.block b566
nop
.block b567
nop
.block b568
nop
.block b569
nop
.block b570
nop
.block b571
nop
.block b572
nop
.block b573
nop
.block b574
nop
.block b575
nop
.block b576
nop
.block b577
nop
.block b578
nop
.block b579
nop
.block b580
nop
.block b581
nop
.block b582
nop
.block b583
nop
.block b584
nop
.block b585
nop
.block b586
nop
.block b587
nop
.block b588
nop
.block b589
nop
.block b590
nop
.block b591
nop
.block b592
nop
.block b593
nop
.block b594
nop
.block b595
nop
.block b596
nop
.block b597
nop
.block b598
nop
.block b599
nop
.block b600
nop
.block b601
nop
.block b602
nop
.block b603
nop
.block b604
nop
.block b605
nop
.block b606
nop
.block b607
nop
.block b608
nop
.block b609
nop
.block b610
nop
.block b611
nop
.block b612
nop
.block b613
nop
.block b614
nop
.block b615
nop
.block b616
nop
.block b617
nop
.block b618
nop
.block b619
nop
.block b620
nop
.block b621
nop
.block b622
nop
.block b623
nop
.block b624
nop
.block b625
nop
.block b626
nop
.block b627
nop
.block b628
nop
.block b629
nop
.block b630
nop
.block b631
nop
.block b632
nop
.block b633
nop
.block b634
nop
.block b635
nop
.block b636
nop
.block b637
nop
.block b638
nop
.block b639
nop
.block b640
nop
.block b641
nop
.block b642
nop
.block b643
nop
.block b644
nop
.block b645
nop
.block b646
nop
.block b647
nop
.block b648
nop
.block b649
nop
.block b650
nop
.block b651
nop
.block b652
nop
.block b653
nop
.block b654
nop
.block b655
nop
.block b656
nop
.block b657
nop
.block b658
nop
.block b659
nop
.block b660
nop
.block b661
nop
.block b662
nop
.block b663
nop
.block b664
nop
.block b665
nop
.block b666
nop
.block b667
nop
.block b668
nop
.block b669
nop
.block b670
nop
.block b671
nop
.block b672
nop
.block b673
nop
.block b674
nop
.block b675
nop
.block b676
nop
.block b677
nop
.block b678
nop
.block b679
nop
.block b680
nop
.block b681
nop
.block b682
nop
.block b683
nop
.block b684
nop
.block b685
nop
.block b686
nop
.block b687
nop
.block b688
nop
.block b689
nop
.block b690
nop
.block b691
nop
.block b692
nop
.block b693
nop
.block b694
nop
.block b695
nop
.block b696
nop
.block b697
nop
.block b698
nop
.block b699
nop
.block b700
nop
.block b701
nop
.block b702
nop
.block b703
nop
.block b704
nop
.block b705
nop
.block b706
nop
.block b707
nop
.block b708
nop
.block b709
nop
.block b710
nop
.block b711
nop
.block b712
nop
.block b713
nop
.block b714
nop
.block b715
nop
.block b716
nop
.block b717
nop
.block b718
nop
.block b719
nop
.block b720
nop
.block b721
nop
.block b722
nop
.block b723
nop
.block b724
nop
.block b725
nop
.block b726
nop
.block b727
nop
.block b728
nop
.block b729
nop
.block b730
nop
.block b731
nop
.block b732
nop
.block b733
nop
.block b734
nop
.block b735
nop
.block b736
nop
.block b737
nop
.block b738
nop
.block b739
nop
.block b740
nop
.block b741
nop
.block b742
nop
.block b743
nop
.block b744
nop
.block b745
nop
.block b746
nop
.block b747
nop
.block b748
nop
.block b749
nop
.block b750
nop
.block b751
nop
.block b752
nop
.block b753
nop
.block b754
nop
.block b755
nop
.block b756
nop
.block b757
nop
.block b758
nop
.block b759
nop
.block b760
nop
.block b761
nop
.block b762
nop
.block b763
nop
.block b764
nop
.block b765
nop
.block b766
nop
.block b767
nop
.block b768
nop
.block b769
nop
.block b770
nop
.block b771
nop
.block b772
nop
.block b773
nop
.block b774
nop
.block b775
nop
.block b776
nop
.block b777
nop
.block b778
nop
.block b779
nop
.block b780
nop
.block b781
nop
.block b782
nop
.block b783
nop
.block b784
nop
.block b785
nop
.block b786
nop
.block b787
nop
.block b788
nop
.block b789
nop
.block b790
nop
.block b791
nop
.block b792
nop
.block b793
nop
.block b794
nop
.block b795
nop
.block b796
nop
.block b797
nop
.block b798
nop
.block b799
nop
.block b800
nop
.block b801
nop
.block b802
nop
.block b803
nop
.block b804
nop
.block b805
nop
.block b806
nop
.block b807
nop
.block b808
nop
.block b809
nop
.block b810
nop
.block b811
nop
.block b812
nop
.block b813
nop
.block b814
nop
.block b815
nop
.block b816
nop
.block b817
nop
.block b818
nop
.block b819
nop
.block b820
nop
.block b821
nop
.block b822
nop
.block b823
nop
.block b824
nop
.block b825
nop
.block b826
nop
.block b827
nop
.block b828
nop
.block b829
nop
.block b830
nop
.block b831
nop
.block b832
nop
.block b833
nop
.block b834
nop
.block b835
nop
.block b836
nop
.block b837
nop
.block b838
nop
.block b839
nop
.block b840
nop
.block b841
nop
.block b842
nop
.block b843
nop
.block b844
nop
.block b845
nop
.block b846
nop
.block b847
nop
.block b848
nop
.block b849
nop
.block b850
nop
.block b851
nop
.block b852
nop
.block b853
nop
.block b854
nop
.block b855
nop
.block b856
nop
.block b857
nop
.block b858
nop
.block b859
nop
.block b860
nop
.block b861
nop
.block b862
nop
.block b863
nop
.block b864
nop
.block b865
nop
.block b866
nop
.block b867
nop
.block b868
nop
.block b869
nop
.block b870
nop
.block b871
nop
.block b872
nop
.block b873
nop
.block b874
nop
.block b875
nop
.block b876
nop
.block b877
nop
.block b878
nop
.block b879
nop
.block b880
nop
.block b881
nop
.block b882
nop
.block b883
nop
.block b884
nop
.block b885
nop
.block b886
nop
.block b887
nop
.block b888
nop
.block b889
nop
.block b890
nop
.block b891
nop
.block b892
nop
.block b893
nop
.block b894
nop
.block b895
nop
.block b896
nop
.block b897
nop
.block b898
nop
.block b899
nop
.block b900
nop
.block b901
nop
.block b902
nop
.block b903
nop
.block b904
nop
.block b905
nop
.block b906
nop
.block b907
nop
.block b908
nop
.block b909
nop
.block b910
nop
.block b911
nop
.block b912
nop
.block b913
nop
.block b914
nop
.block b915
nop
.block b916
nop
.block b917
nop
.block b918
nop
.block b919
nop
.block b920
nop
.block b921
nop
.block b922
nop
.block b923
nop
.block b924
nop
.block b925
nop
.block b926
nop
.block b927
nop
.block b928
nop
.block b929
nop
.block b930
nop
.block b931
nop
.block b932
nop
.block b933
nop
.block b934
nop
.block b935
nop
.block b936
nop
.block b937
nop
.block b938
nop
.block b939
nop
.block b940
nop
.block b941
nop
.block b942
nop
.block b943
nop
.block b944
nop
.block b945
nop
.block b946
nop
.block b947
nop
.block b948
nop
.block b949
nop
.block b950
nop
.block b951
nop
.block b952
nop
.block b953
nop
.block b954
nop
.block b955
nop
.block b956
nop
.block b957
nop
.block b958
nop
.block b959
nop
.block b960
nop
.block b961
nop
.block b962
nop
.block b963
nop
.block b964
nop
.block b965
nop
.block b966
nop
.block b967
nop
.block b968
nop
.block b969
nop
.block b970
nop
.block b971
nop
.block b972
nop
.block b973
nop
.block b974
nop
.block b975
nop
.block b976
nop
.block b977
nop
.block b978
nop
.block b979
nop
.block b980
nop
.block b981
nop
.block b982
nop
.block b983
nop
.block b984
nop
.block b985
nop
.block b986
nop
.block b987
nop
.block b988
nop
.block b989
nop
.block b990
nop
.block b991
nop
.block b992
nop
.block b993
nop
.block b994
nop
.block b995
nop
.block b996
nop
.block b997
nop
.block b998
nop
.block b999
nop
.block b1000
nop
.block b1001
nop
.block b1002
nop
.block b1003
nop
.block b1004
nop
.block b1005
nop
.block b1006
nop
.block b1007
nop
.block b1008
nop
.block b1009
nop
.block b1010
nop
.block b1011
nop
.block b1012
nop
.block b1013
nop
.block b1014
nop
.block b1015
nop
.block b1016
nop
.block b1017
nop
.block b1018
nop
.block b1019
nop
.block b1020
nop
.block b1021
nop
.block b1022
nop
.block b1023
nop
.block b1024
nop
.block b1025
nop
.block b1026
nop
.block b1027
nop
.block b1028
nop
.block b1029
nop
.block b1030
nop
.block b1031
nop
.block b1032
nop
.block b1033
nop
.block b1034
nop
.block b1035
nop
.block b1036
nop
.block b1037
nop
.block b1038
nop
.block b1039
nop
.block b1040
nop
.block b1041
nop
.block b1042
nop
.block b1043
nop
.block b1044
nop
.block b1045
nop
.block b1046
nop
.block b1047
nop
.block b1048
nop
.block b1049
nop
.block b1050
nop
.block b1051
nop
.block b1052
nop
.block b1053
nop
.block b1054
nop
.block b1055
nop
.block b1056
nop
.block b1057
nop
.block b1058
nop
.block b1059
nop
.block b1060
nop
.block b1061
nop
.block b1062
nop
.block b1063
nop
.block b1064
nop
.block b1065
nop
.block b1066
nop
.block b1067
nop
.block b1068
nop
.block b1069
nop
.block b1070
nop
.block b1071
nop
.block b1072
nop
.block b1073
nop
.block b1074
nop
.block b1075
nop
.block b1076
nop
.block b1077
nop
.block b1078
nop
.block b1079
nop
.block b1080
nop
.block b1081
nop
.block b1082
nop
.block b1083
nop
.block b1084
nop
.block b1085
nop
.block b1086
nop
.block b1087
nop
.block b1088
nop
.block b1089
nop
.block b1090
nop
.block b1091
nop
.block b1092
nop
.block b1093
nop
.block b1094
nop
.block b1095
nop
.block b1096
nop
.block b1097
nop
.block b1098
nop
.block b1099
nop
.block b1100
nop
.block b1101
nop
.block b1102
nop
.block b1103
nop
.block b1104
nop
.block b1105
nop
.block b1106
nop
.block b1107
nop
.block b1108
nop
.block b1109
nop
.block b1110
nop
.block b1111
nop
.block b1112
nop
.block b1113
nop
.block b1114
nop
.block b1115
nop
.block b1116
nop
.block b1117
nop
.block b1118
nop
.block b1119
nop
.block b1120
nop
.block b1121
nop
.block b1122
nop
.block b1123
nop
.block b1124
nop
.block b1125
nop
.block b1126
nop
.block b1127
nop
.block b1128
nop
.block b1129
nop
.block b1130
nop
.block b1131
nop
.block b1132
nop
.block b1133
nop
.block b1134
nop
.block b1135
nop
.block b1136
nop
.block b1137
nop
.block b1138
nop
.block b1139
nop
.block b1140
nop
.block b1141
nop
.block b1142
nop
.block b1143
nop
.block b1144
nop
.block b1145
nop
.block b1146
nop
.block b1147
nop
.block b1148
nop
.block b1149
nop
.block b1150
nop
.block b1151
nop
.block b1152
nop
.block b1153
nop
.block b1154
nop
.block b1155
nop
.block b1156
nop
.block b1157
nop
.block b1158
nop
.block b1159
nop
.block b1160
nop
.block b1161
nop
.block b1162
nop
.block b1163
nop
.block b1164
nop
.block b1165
nop
.block b1166
nop
.block b1167
nop
.block b1168
nop
.block b1169
nop
.block b1170
nop
.block b1171
nop
.block b1172
nop
.block b1173
nop
.block b1174
nop
.block b1175
nop
.block b1176
nop
.block b1177
nop
.block b1178
nop
.block b1179
nop
.block b1180
nop
.block b1181
nop
.block b1182
nop
.block b1183
nop
.block b1184
nop
.block b1185
nop
.block b1186
nop
.block b1187
nop
.block b1188
nop
.block b1189
nop
.block b1190
nop
.block b1191
nop
.block b1192
nop
.block b1193
nop
.block b1194
nop
.block b1195
nop
.block b1196
nop
.block b1197
nop
.block b1198
nop
.block b1199
nop
.block b1200
nop
.block b1201
nop
.block b1202
nop
.block b1203
nop
.block b1204
nop
.block b1205
nop
.block b1206
nop
.block b1207
nop
.block b1208
nop
.block b1209
nop
.block b1210
nop
.block b1211
nop
.block b1212
nop
.block b1213
nop
.block b1214
nop
.block b1215
nop
.block b1216
nop
.block b1217
nop
.block b1218
nop
.block b1219
nop
.block b1220
nop
.block b1221
nop
.block b1222
nop
.block b1223
nop
.block b1224
nop
.block b1225
nop
.block b1226
nop
.block b1227
nop
.block b1228
nop
.block b1229
nop
.block b1230
nop
.block b1231
nop
.block b1232
nop
.block b1233
nop
.block b1234
nop
.block b1235
nop
.block b1236
nop
.block b1237
nop
.block b1238
nop
.block b1239
nop
.block b1240
nop
.block b1241
nop
.block b1242
nop
.block b1243
nop
.block b1244
nop
.block b1245
nop
.block b1246
nop
.block b1247
nop
.block b1248
nop
.block b1249
nop
.block b1250
nop
.block b1251
nop
.block b1252
nop
.block b1253
nop
.block b1254
nop
.block b1255
nop
.block b1256
nop
.block b1257
nop
.block b1258
nop
.block b1259
nop
.block b1260
nop
.block b1261
nop
.block b1262
nop
.block b1263
nop
.block b1264
nop
.block b1265
nop
.block b1266
nop
.block b1267
nop
.block b1268
nop
.block b1269
nop
.block b1270
nop
.block b1271
nop
.block b1272
nop
.block b1273
nop
.block b1274
nop
.block b1275
nop
.block b1276
nop
.block b1277
nop
.block b1278
nop
.block b1279
nop
.block b1280
nop
.block b1281
nop
.block b1282
nop
.block b1283
nop
.block b1284
nop
.block b1285
nop
.block b1286
nop
.block b1287
nop
.block b1288
nop
.block b1289
nop
.block b1290
nop
.block b1291
nop
.block b1292
nop
.block b1293
nop
.block b1294
nop
.block b1295
nop
.block b1296
nop
.block b1297
nop
.block b1298
nop
.block b1299
nop
.block b1300
nop
.block b1301
nop
.block b1302
nop
.block b1303
nop
.block b1304
nop
.block b1305
nop
.block b1306
nop
.block b1307
nop
.block b1308
nop
.block b1309
nop
.block b1310
nop
.block b1311
nop
.block b1312
nop
.block b1313
nop
.block b1314
nop
.block b1315
nop
.block b1316
nop
.block b1317
nop
.block b1318
nop
.block b1319
nop
.block b1320
nop
.block b1321
nop
.block b1322
nop
.block b1323
nop
.block b1324
nop
.block b1325
nop
.block b1326
nop
.block b1327
nop
.block b1328
nop
.block b1329
nop
.block b1330
nop
.block b1331
nop
.block b1332
nop
.block b1333
nop
.block b1334
nop
.block b1335
nop
.block b1336
nop
.block b1337
nop
.block b1338
nop
.block b1339
nop
.block b1340
nop
.block b1341
nop
.block b1342
nop
.block b1343
nop
.block b1344
nop
.block b1345
nop
.block b1346
nop
.block b1347
nop
.block b1348
nop
.block b1349
nop
.block b1350
nop
.block b1351
nop
.block b1352
nop
.block b1353
nop
.block b1354
nop
.block b1355
nop
.block b1356
nop
.block b1357
nop
.block b1358
nop
.block b1359
nop
.block b1360
nop
.block b1361
nop
.block b1362
nop
.block b1363
nop
.block b1364
nop
.block b1365
nop
.block b1366
nop
.block b1367
nop
.block b1368
nop
.block b1369
nop
.block b1370
nop
.block b1371
nop
.block b1372
nop
.block b1373
nop
.block b1374
nop
.block b1375
nop
.block b1376
nop
.block b1377
nop
.block b1378
nop
.block b1379
nop
.block b1380
nop
.block b1381
nop
.block b1382
nop
.block b1383
nop
.block b1384
nop
.block b1385
nop
.block b1386
nop
.block b1387
nop
.block b1388
nop
.block b1389
nop
.block b1390
nop
.block b1391
nop
.block b1392
nop
.block b1393
nop
.block b1394
nop
.block b1395
nop
.block b1396
nop
.block b1397
nop
.block b1398
nop
.block b1399
nop
.block b1400
nop
.block b1401
nop
.block b1402
nop
.block b1403
nop
.block b1404
nop
.block b1405
nop
.block b1406
nop
.block b1407
nop
.block b1408
nop
.block b1409
nop
.block b1410
nop
.block b1411
nop
.block b1412
nop
.block b1413
nop
.block b1414
nop
.block b1415
nop
.block b1416
nop
.block b1417
nop
.block b1418
nop
.block b1419
nop
.block b1420
nop
.block b1421
nop
.block b1422
nop
.block b1423
nop
.block b1424
nop
.block b1425
nop
.block b1426
nop
.block b1427
nop
.block b1428
nop
.block b1429
nop
.block b1430
nop
.block b1431
nop
.block b1432
nop
.block b1433
nop
.block b1434
nop
.block b1435
nop
.block b1436
nop
.block b1437
nop
.block b1438
nop
.block b1439
nop
.block b1440
nop
.block b1441
nop
.block b1442
nop
.block b1443
nop
.block b1444
nop
.block b1445
nop
.block b1446
nop
.block b1447
nop
.block b1448
nop
.block b1449
nop
.block b1450
nop
.block b1451
nop
.block b1452
nop
.block b1453
nop
.block b1454
nop
.block b1455
nop
.block b1456
nop
.block b1457
nop
.block b1458
nop
.block b1459
nop
.block b1460
nop
.block b1461
nop
.block b1462
nop
.block b1463
nop
.block b1464
nop
.block b1465
nop
.block b1466
nop
.block b1467
nop
.block b1468
nop
.block b1469
nop
.block b1470
nop
.block b1471
nop
.block b1472
nop
.block b1473
nop
.block b1474
nop
.block b1475
nop
.block b1476
nop
.block b1477
nop
.block b1478
nop
.block b1479
nop
.block b1480
nop
.block b1481
nop
.block b1482
nop
.block b1483
nop
.block b1484
nop
.block b1485
nop
.block b1486
nop
.block b1487
nop
.block b1488
nop
.block b1489
nop
.block b1490
nop
.block b1491
nop
.block b1492
nop
.block b1493
nop
.block b1494
nop
.block b1495
nop
.block b1496
nop
.block b1497
nop
.block b1498
nop
.block b1499
nop
.block b1500
nop
.block b1501
nop
.block b1502
nop
.block b1503
nop
.block b1504
nop
.block b1505
nop
.block b1506
nop
.block b1507
nop
.block b1508
nop
.block b1509
nop
.block b1510
nop
.block b1511
nop
.block b1512
nop
.block b1513
nop
.block b1514
nop
.block b1515
nop
.block b1516
nop
.block b1517
nop
.block b1518
nop
.block b1519
nop
.block b1520
nop
.block b1521
nop
.block b1522
nop
.block b1523
nop
.block b1524
nop
.block b1525
nop
.block b1526
nop
.block b1527
nop
.block b1528
nop
.block b1529
nop
.block b1530
nop
.block b1531
nop
.block b1532
nop
.block b1533
nop
.block b1534
nop
.block b1535
nop
.block b1536
nop
.block b1537
nop
.block b1538
nop
.block b1539
nop
.block b1540
nop
.block b1541
nop
.block b1542
nop
.block b1543
nop
.block b1544
nop
.block b1545
nop
.block b1546
nop
.block b1547
nop
.block b1548
nop
.block b1549
nop
.block b1550
nop
.block b1551
nop
.block b1552
nop
.block b1553
nop
.block b1554
nop
.block b1555
nop
.block b1556
nop
.block b1557
nop
.block b1558
nop
.block b1559
nop
.block b1560
nop
.block b1561
nop
.block b1562
nop
.block b1563
nop
.block b1564
nop
.block b1565
nop
.block b1566
nop
.block b1567
nop
.block b1568
nop
.block b1569
nop
.block b1570
nop
.block b1571
nop
.block b1572
nop
.block b1573
nop
.block b1574
nop
.block b1575
nop
.block b1576
nop
.block b1577
nop
.block b1578
nop
.block b1579
nop
.block b1580
nop
.block b1581
nop
.block b1582
nop
.block b1583
nop
.block b1584
nop
.block b1585
nop
.block b1586
nop
.block b1587
nop
.block b1588
nop
.block b1589
nop
.block b1590
nop
.block b1591
nop
.block b1592
nop
.block b1593
nop
.block b1594
nop
.block b1595
nop
.block b1596
nop
.block b1597
nop
.block b1598
nop
.block b1599
nop
.block b1600
nop
.block b1601
nop
.block b1602
nop
.block b1603
nop
.block b1604
nop
.block b1605
nop
.block b1606
nop
.block b1607
nop
.block b1608
nop
.block b1609
nop
.block b1610
nop
.block b1611
nop
.block b1612
nop
.block b1613
nop
.block b1614
nop
.block b1615
nop
.block b1616
nop
.block b1617
nop
.block b1618
nop
.block b1619
nop
.block b1620
nop
.block b1621
nop
.block b1622
nop
.block b1623
nop
.block b1624
nop
.block b1625
nop
.block b1626
nop
.block b1627
nop
.block b1628
nop
.block b1629
nop
.block b1630
nop
.block b1631
nop
.block b1632
nop
.block b1633
nop
.block b1634
nop
.block b1635
nop
.block b1636
nop
.block b1637
nop
.block b1638
nop
.block b1639
nop
.block b1640
nop
.block b1641
nop
.block b1642
nop
.block b1643
nop
.block b1644
nop
.block b1645
nop
.block b1646
nop
.block b1647
nop
.block b1648
nop
.block b1649
nop
.block b1650
nop
.block b1651
nop
.block b1652
nop
.block b1653
nop
.block b1654
nop
.block b1655
nop
.block b1656
nop
.block b1657
nop
.block b1658
nop
.block b1659
nop
.block b1660
nop
.block b1661
nop
.block b1662
nop
.block b1663
nop
.block b1664
nop
.block b1665
nop
.block b1666
nop
.block b1667
nop
.block b1668
nop
.block b1669
nop
.block b1670
nop
.block b1671
nop
.block b1672
nop
.block b1673
nop
.block b1674
nop
.block b1675
nop
.block b1676
nop
.block b1677
nop
.block b1678
nop
.block b1679
nop
.block b1680
nop
.block b1681
nop
.block b1682
nop
.block b1683
nop
.block b1684
nop
.block b1685
nop
.block b1686
nop
.block b1687
nop
.block b1688
nop
.block b1689
nop
.block b1690
nop
.block b1691
nop
.block b1692
nop
.block b1693
nop
.block b1694
nop
.block b1695
nop
.block b1696
nop
.block b1697
nop
.block b1698
nop
.block b1699
nop
.block b1700
nop
.block b1701
nop
.block b1702
nop
.block b1703
nop
.block b1704
nop
.block b1705
nop
.block b1706
nop
.block b1707
nop
.block b1708
nop
.block b1709
nop
.block b1710
nop
.block b1711
nop
.block b1712
nop
.block b1713
nop
.block b1714
nop
.block b1715
nop
.block b1716
nop
.block b1717
nop
.block b1718
nop
.block b1719
nop
.block b1720
nop
.block b1721
nop
.block b1722
nop
.block b1723
nop
.block b1724
nop
.block b1725
nop
.block b1726
nop
.block b1727
nop
.block b1728
nop
.block b1729
nop
.block b1730
nop
.block b1731
nop
.block b1732
nop
.block b1733
nop
.block b1734
nop
.block b1735
nop
.block b1736
nop
.block b1737
nop
.block b1738
nop
.block b1739
nop
.block b1740
nop
.block b1741
nop
.block b1742
nop
.block b1743
nop
.block b1744
nop
.block b1745
nop
.block b1746
nop
.block b1747
nop
.block b1748
nop
.block b1749
nop
.block b1750
nop
.block b1751
nop
.block b1752
nop
.block b1753
nop
.block b1754
nop
.block b1755
nop
.block b1756
nop
.block b1757
nop
.block b1758
nop
.block b1759
nop
.block b1760
nop
.block b1761
nop
.block b1762
nop
.block b1763
nop
.block b1764
nop
.block b1765
nop
.block b1766
nop
.block b1767
nop
.block b1768
nop
.block b1769
nop
.block b1770
nop
.block b1771
nop
.block b1772
nop
.block b1773
nop
.block b1774
nop
.block b1775
nop
.block b1776
nop
.block b1777
nop
.block b1778
nop
.block b1779
nop
.block b1780
nop
.block b1781
nop
.block b1782
nop
.block b1783
nop
.block b1784
nop
.block b1785
nop
.block b1786
nop
.block b1787
nop
.block b1788
nop
.block b1789
nop
.block b1790
nop
.block b1791
nop
.block b1792
nop
.block b1793
nop
.block b1794
nop
.block b1795
nop
.block b1796
nop
.block b1797
nop
.block b1798
nop
.block b1799
nop
.block b1800
nop
.block b1801
nop
.block b1802
nop
.block b1803
nop
.block b1804
nop
.block b1805
nop
.block b1806
nop
.block b1807
nop
.block b1808
nop
.block b1809
nop
.block b1810
nop
.block b1811
nop
.block b1812
nop
.block b1813
nop
.block b1814
nop
.block b1815
nop
.block b1816
nop
.block b1817
nop
.block b1818
nop
.block b1819
nop
.block b1820
nop
.block b1821
nop
.block b1822
nop
.block b1823
nop
.block b1824
nop
.block b1825
nop
.block b1826
nop
.block b1827
nop
.block b1828
nop
.block b1829
nop
.block b1830
nop
.block b1831
nop
.block b1832
nop
.block b1833
nop
.block b1834
nop
.block b1835
nop
.block b1836
nop
.block b1837
nop
.block b1838
nop
.block b1839
nop
.block b1840
nop
.block b1841
nop
.block b1842
nop
.block b1843
nop
.block b1844
nop
.block b1845
nop
.block b1846
nop
.block b1847
nop
.block b1848
nop
.block b1849
nop
.block b1850
nop
.block b1851
nop
.block b1852
nop
.block b1853
nop
.block b1854
nop
.block b1855
nop
.block b1856
nop
.block b1857
nop
.block b1858
nop
.block b1859
nop
.block b1860
nop
.block b1861
nop
.block b1862
nop
.block b1863
nop
.block b1864
nop
.block b1865
nop
.block b1866
nop
.block b1867
nop
.block b1868
nop
.block b1869
nop
.block b1870
nop
.block b1871
nop
.block b1872
nop
.block b1873
nop
.block b1874
nop
.block b1875
nop
.block b1876
nop
.block b1877
nop
.block b1878
nop
.block b1879
nop
.block b1880
nop
.block b1881
nop
.block b1882
nop
.block b1883
nop
.block b1884
nop
.block b1885
nop
.block b1886
nop
.block b1887
nop
.block b1888
nop
.block b1889
nop
.block b1890
nop
.block b1891
nop
.block b1892
nop
.block b1893
nop
.block b1894
nop
.block b1895
nop
.block b1896
nop
.block b1897
nop
.block b1898
nop
.block b1899
nop
.block b1900
nop
.block b1901
nop
.block b1902
nop
.block b1903
nop
.block b1904
nop
.block b1905
nop
.block b1906
nop
.block b1907
nop
.block b1908
nop
.block b1909
nop
.block b1910
nop
.block b1911
nop
.block b1912
nop
.block b1913
nop
.block b1914
nop
.block b1915
nop
.block b1916
nop
.block b1917
nop
.block b1918
nop
.block b1919
nop
.block b1920
nop
.block b1921
nop
.block b1922
nop
.block b1923
nop
.block b1924
nop
.block b1925
nop
.block b1926
nop
.block b1927
nop
.block b1928
nop
.block b1929
nop
.block b1930
nop
.block b1931
nop
.block b1932
nop
.block b1933
nop
.block b1934
nop
.block b1935
nop
.block b1936
nop
.block b1937
nop
.block b1938
nop
.block b1939
nop
.block b1940
nop
.block b1941
nop
.block b1942
nop
.block b1943
nop
.block b1944
nop
.block b1945
nop
.block b1946
nop
.block b1947
nop
.block b1948
nop
.block b1949
nop
.block b1950
nop
.block b1951
nop
.block b1952
nop
.block b1953
nop
.block b1954
nop
.block b1955
nop
.block b1956
nop
.block b1957
nop
.block b1958
nop
.block b1959
nop
.block b1960
nop
.block b1961
nop
.block b1962
nop
.block b1963
nop
.block b1964
nop
.block b1965
nop
.block b1966
nop
.block b1967
nop
.block b1968
nop
.block b1969
nop
.block b1970
nop
.block b1971
nop
.block b1972
nop
.block b1973
nop
.block b1974
nop
.block b1975
nop
.block b1976
nop
.block b1977
nop
.block b1978
nop
.block b1979
nop
.block b1980
nop
.block b1981
nop
.block b1982
nop
.block b1983
nop
.block b1984
nop
.block b1985
nop
.block b1986
nop
.block b1987
nop
.block b1988
nop
.block b1989
nop
.block b1990
nop
.block b1991
nop
.block b1992
nop
.block b1993
nop
.block b1994
nop
.block b1995
nop
.block b1996
nop
.block b1997
nop
.block b1998
nop
.block b1999
nop
.block b2000
nop
.block b2001
nop
.block b2002
nop
.block b2003
nop
.block b2004
nop
.block b2005
nop
.block b2006
nop
.block b2007
nop
.block b2008
nop
.block b2009
nop
.block b2010
nop
.block b2011
nop
.block b2012
nop
.block b2013
nop
.block b2014
nop
.block b2015
nop
.block b2016
nop
.block b2017
nop
.block b2018
nop
.block b2019
nop
.block b2020
nop
.block b2021
nop
.block b2022
nop
.block b2023
nop
.block b2024
nop
.block b2025
nop
.block b2026
nop
.block b2027
nop
.block b2028
nop
.block b2029
nop
.block b2030
nop
.block b2031
nop
.block b2032
nop
.block b2033
nop
.block b2034
nop
.block b2035
nop
.block b2036
nop
.block b2037
nop
.block b2038
nop
.block b2039
nop
.block b2040
nop
.block b2041
nop
.block b2042
nop
.block b2043
nop
.block b2044
nop
.block b2045
nop
.block b2046
nop
.block b2047
nop
.block b2048
nop
.block b2049
nop
.block b2050
nop
.block b2051
nop
.block b2052
nop
.block b2053
nop
.block b2054
nop
.block b2055
nop
.block b2056
nop
.block b2057
nop
.block b2058
nop
.block b2059
nop
.block b2060
nop
.block b2061
nop
.block b2062
nop
.block b2063
nop
.block b2064
nop
.block b2065
nop
.block b2066
nop
.block b2067
nop
.block b2068
nop
.block b2069
nop
.block b2070
nop
.block b2071
nop
.block b2072
nop
.block b2073
nop
.block b2074
nop
.block b2075
nop
.block b2076
nop
.block b2077
nop
.block b2078
nop
.block b2079
nop
.block b2080
nop
.block b2081
nop
.block b2082
nop
.block b2083
nop
.block b2084
nop
.block b2085
nop
.block b2086
nop
.block b2087
nop
.block b2088
nop
.block b2089
nop
.block b2090
nop
.block b2091
nop
.block b2092
nop
.block b2093
nop
.block b2094
nop
.block b2095
nop
.block b2096
nop
.block b2097
nop
.block b2098
nop
.block b2099
nop
.block b2100
nop
.block b2101
nop
.block b2102
nop
.block b2103
nop
.block b2104
nop
.block b2105
nop
.block b2106
nop
.block b2107
nop
.block b2108
nop
.block b2109
nop
.block b2110
nop
.block b2111
nop
.block b2112
nop
.block b2113
nop
.block b2114
nop
.block b2115
nop
.block b2116
nop
.block b2117
nop
.block b2118
nop
.block b2119
nop
.block b2120
nop
.block b2121
nop
.block b2122
nop
.block b2123
nop
.block b2124
nop
.block b2125
nop
.block b2126
nop
.block b2127
nop
.block b2128
nop
.block b2129
nop
.block b2130
nop
.block b2131
nop
.block b2132
nop
.block b2133
nop
.block b2134
nop
.block b2135
nop
.block b2136
nop
.block b2137
nop
.block b2138
nop
.block b2139
nop
.block b2140
nop
.block b2141
nop
.block b2142
nop
.block b2143
nop
.block b2144
nop
.block b2145
nop
.block b2146
nop
.block b2147
nop
.block b2148
nop
.block b2149
nop
.block b2150
nop
.block b2151
nop
.block b2152
nop
.block b2153
nop
.block b2154
nop
.block b2155
nop
.block b2156
nop
.block b2157
nop
.block b2158
nop
.block b2159
nop
.block b2160
nop
.block b2161
nop
.block b2162
nop
.block b2163
nop
.block b2164
nop
.block b2165
nop
.block b2166
nop
.block b2167
nop
.block b2168
nop
.block b2169
nop
.block b2170
nop
.block b2171
nop
.block b2172
nop
.block b2173
nop
.block b2174
nop
.block b2175
nop
.block b2176
nop
.block b2177
nop
.block b2178
nop
.block b2179
nop
.block b2180
nop
.block b2181
nop
.block b2182
nop
.block b2183
nop
.block b2184
nop
.block b2185
nop
.block b2186
nop
.block b2187
nop
.block b2188
nop
.block b2189
nop
.block b2190
nop
.block b2191
nop
.block b2192
nop
.block b2193
nop
.block b2194
nop
.block b2195
nop
.block b2196
nop
.block b2197
nop
.block b2198
nop
.block b2199
nop
.block b2200
nop
.block b2201
nop
.block b2202
nop
.block b2203
nop
.block b2204
nop
.block b2205
nop
.block b2206
nop
.block b2207
nop
.block b2208
nop
.block b2209
nop
.block b2210
nop
.block b2211
nop
.block b2212
nop
.block b2213
nop
.block b2214
nop
.block b2215
nop
.block b2216
nop
.block b2217
nop
.block b2218
nop
.block b2219
nop
.block b2220
nop
.block b2221
nop
.block b2222
nop
.block b2223
nop
.block b2224
nop
.block b2225
nop
.block b2226
nop
.block b2227
nop
.block b2228
nop
.block b2229
nop
.block b2230
nop
.block b2231
nop
.block b2232
nop
.block b2233
nop
.block b2234
nop
.block b2235
nop
.block b2236
nop
.block b2237
nop
.block b2238
nop
.block b2239
nop
.block b2240
nop
.block b2241
nop
.block b2242
nop
.block b2243
nop
.block b2244
nop
.block b2245
nop
.block b2246
nop
.block b2247
nop
.block b2248
nop
.block b2249
nop
.block b2250
nop
.block b2251
nop
.block b2252
nop
.block b2253
nop
.block b2254
nop
.block b2255
nop
.block b2256
nop
.block b2257
nop
.block b2258
nop
.block b2259
nop
.block b2260
nop
.block b2261
nop
.block b2262
nop
.block b2263
nop
.block b2264
nop
.block b2265
nop
.block b2266
nop
.block b2267
nop
.block b2268
nop
.block b2269
nop
.block b2270
nop
.block b2271
nop
.block b2272
nop
.block b2273
nop
.block b2274
nop
.block b2275
nop
.block b2276
nop
.block b2277
nop
.block b2278
nop
.block b2279
nop
.block b2280
nop
.block b2281
nop
.block b2282
nop
.block b2283
nop
.block b2284
nop
.block b2285
nop
.block b2286
nop
.block b2287
nop
.block b2288
nop
.block b2289
nop
.block b2290
nop
.block b2291
nop
.block b2292
nop
.block b2293
nop
.block b2294
nop
.block b2295
nop
.block b2296
nop
.block b2297
nop
.block b2298
nop
.block b2299
nop
.block b2300
nop
.block b2301
nop
.block b2302
nop
.block b2303
nop
.block b2304
nop
.block b2305
nop
.block b2306
nop
.block b2307
nop
.block b2308
nop
.block b2309
nop
.block b2310
nop
.block b2311
nop
.block b2312
nop
.block b2313
nop
.block b2314
nop
.block b2315
nop
.block b2316
nop
.block b2317
nop
.block b2318
nop
.block b2319
nop
.block b2320
nop
.block b2321
nop
.block b2322
nop
.block b2323
nop
.block b2324
nop
.block b2325
nop
.block b2326
nop
.block b2327
nop
.block b2328
nop
.block b2329
nop
.block b2330
nop
.block b2331
nop
.block b2332
nop
.block b2333
nop
.block b2334
nop
.block b2335
nop
.block b2336
nop
.block b2337
nop
.block b2338
nop
.block b2339
nop
.block b2340
nop
.block b2341
nop
.block b2342
nop
.block b2343
nop
.block b2344
nop
.block b2345
nop
.block b2346
nop
.block b2347
nop
.block b2348
nop
.block b2349
nop
.block b2350
nop
.block b2351
nop
.block b2352
nop
.block b2353
nop
.block b2354
nop
.block b2355
nop
.block b2356
nop
.block b2357
nop
.block b2358
nop
.block b2359
nop
.block b2360
nop
.block b2361
nop
.block b2362
nop
.block b2363
nop
.block b2364
nop
.block b2365
nop
.block b2366
nop
.block b2367
nop
.block b2368
nop
.block b2369
nop
.block b2370
nop
.block b2371
nop
.block b2372
nop
.block b2373
nop
.block b2374
nop
.block b2375
nop
.block b2376
nop
.block b2377
nop
.block b2378
nop
.block b2379
nop
.block b2380
nop
.block b2381
nop
.block b2382
nop
.block b2383
nop
.block b2384
nop
.block b2385
nop
.block b2386
nop
.block b2387
nop
.block b2388
nop
.block b2389
nop
.block b2390
nop
.block b2391
nop
.block b2392
nop
.block b2393
nop
.block b2394
nop
.block b2395
nop
.block b2396
nop
.block b2397
nop
.block b2398
nop
.block b2399
nop
.block b2400
nop
.block b2401
nop
.block b2402
nop
.block b2403
nop
.block b2404
nop
.block b2405
nop
.block b2406
nop
.block b2407
nop
.block b2408
nop
.block b2409
nop
.block b2410
nop
.block b2411
nop
.block b2412
nop
.block b2413
nop
.block b2414
nop
.block b2415
nop
.block b2416
nop
.block b2417
nop
.block b2418
nop
.block b2419
nop
.block b2420
nop
.block b2421
nop
.block b2422
nop
.block b2423
nop
.block b2424
nop
.block b2425
nop
.block b2426
nop
.block b2427
nop
.block b2428
nop
.block b2429
nop
.block b2430
nop
.block b2431
nop
.block b2432
nop
.block b2433
nop
.block b2434
nop
.block b2435
nop
.block b2436
nop
.block b2437
nop
.block b2438
nop
.block b2439
nop
.block b2440
nop
.block b2441
nop
.block b2442
nop
.block b2443
nop
.block b2444
nop
.block b2445
nop
.block b2446
nop
.block b2447
nop
.block b2448
nop
.block b2449
nop
.block b2450
nop
.block b2451
nop
.block b2452
nop
.block b2453
nop
.block b2454
nop
.block b2455
nop
.block b2456
nop
.block b2457
nop
.block b2458
nop
.block b2459
nop
.block b2460
nop
.block b2461
nop
.block b2462
nop
.block b2463
nop
.block b2464
nop
.block b2465
nop
.block b2466
nop
.block b2467
nop
.block b2468
nop
.block b2469
nop
.block b2470
nop
.block b2471
nop
.block b2472
nop
.block b2473
nop
.block b2474
nop
.block b2475
nop
.block b2476
nop
.block b2477
nop
.block b2478
nop
.block b2479
nop
.block b2480
nop
.block b2481
nop
.block b2482
nop
.block b2483
nop
.block b2484
nop
.block b2485
nop
.block b2486
nop
.block b2487
nop
.block b2488
nop
.block b2489
nop
.block b2490
nop
.block b2491
nop
.block b2492
nop
.block b2493
nop
.block b2494
nop
.block b2495
nop
.block b2496
nop
.block b2497
nop
.block b2498
nop
.block b2499
nop
.block b2500
nop
.block b2501
nop
.block b2502
nop
.block b2503
nop
.block b2504
nop
.block b2505
nop
.block b2506
nop
.block b2507
nop
.block b2508
nop
.block b2509
nop
.block b2510
nop
.block b2511
nop
.block b2512
nop
.block b2513
nop
.block b2514
nop
.block b2515
nop
.block b2516
nop
.block b2517
nop
.block b2518
nop
.block b2519
nop
.block b2520
nop
.block b2521
nop
.block b2522
nop
.block b2523
nop
.block b2524
nop
.block b2525
nop
.block b2526
nop
.block b2527
nop
.block b2528
nop
.block b2529
nop
.block b2530
nop
.block b2531
nop
.block b2532
nop
.block b2533
nop
.block b2534
nop
.block b2535
nop
.block b2536
nop
.block b2537
nop
.block b2538
nop
.block b2539
nop
.block b2540
nop
.block b2541
nop
.block b2542
nop
.block b2543
nop
.block b2544
nop
.block b2545
nop
.block b2546
nop
.block b2547
nop
.block b2548
nop
.block b2549
nop
.block b2550
nop
.block b2551
nop
.block b2552
nop
.block b2553
nop
.block b2554
nop
.block b2555
nop
.block b2556
nop
.block b2557
nop
.block b2558
nop
.block b2559
nop
.block b2560
nop
.block b2561
nop
.block b2562
nop
.block b2563
nop
.block b2564
nop
.block b2565
nop
.block b2566
nop
.block b2567
nop
.block b2568
nop
.block b2569
nop
.block b2570
nop
.block b2571
nop
.block b2572
nop
.block b2573
nop
.block b2574
nop
.block b2575
nop
.block b2576
nop
.block b2577
nop
.block b2578
nop
.block b2579
nop
.block b2580
nop
.block b2581
nop
.block b2582
nop
.block b2583
nop
.block b2584
nop
.block b2585
nop
.block b2586
nop
.block b2587
nop
.block b2588
nop
.block b2589
nop
.block b2590
nop
.block b2591
nop
.block b2592
nop
.block b2593
nop
.block b2594
nop
.block b2595
nop
.block b2596
nop
.block b2597
nop
.block b2598
nop
.block b2599
nop
.block b2600
nop
.block b2601
nop
.block b2602
nop
.block b2603
nop
.block b2604
nop
.block b2605
nop
.block b2606
nop
.block b2607
nop
.block b2608
nop
.block b2609
nop
.block b2610
nop
.block b2611
nop
.block b2612
nop
.block b2613
nop
.block b2614
nop
.block b2615
nop
.block b2616
nop
.block b2617
nop
.block b2618
nop
.block b2619
nop
.block b2620
nop
.block b2621
nop
.block b2622
nop
.block b2623
nop
.block b2624
nop
.block b2625
nop
.block b2626
nop
.block b2627
nop
.block b2628
nop
.block b2629
nop
.block b2630
nop
.block b2631
nop
.block b2632
nop
.block b2633
nop
.block b2634
nop
.block b2635
nop
.block b2636
nop
.block b2637
nop
.block b2638
nop
.block b2639
nop
.block b2640
nop
.block b2641
nop
.block b2642
nop
.block b2643
nop
.block b2644
nop
.block b2645
nop
.block b2646
nop
.block b2647
nop
.block b2648
nop
.block b2649
nop
.block b2650
nop
.block b2651
nop
.block b2652
nop
.block b2653
nop
.block b2654
nop
.block b2655
nop
.block b2656
nop
.block b2657
nop
.block b2658
nop
.block b2659
nop
.block b2660
nop
.block b2661
nop
.block b2662
nop
.block b2663
nop
.block b2664
nop
.block b2665
nop
.block b2666
nop
.block b2667
nop
.block b2668
nop
.block b2669
nop
.block b2670
nop
.block b2671
nop
.block b2672
nop
.block b2673
nop
.block b2674
nop
.block b2675
nop
.block b2676
nop
.block b2677
nop
.block b2678
nop
.block b2679
nop
.block b2680
nop
.block b2681
nop
.block b2682
nop
.block b2683
nop
.block b2684
nop
.block b2685
nop
.block b2686
nop
.block b2687
nop
.block b2688
nop
.block b2689
nop
.block b2690
nop
.block b2691
nop
.block b2692
nop
.block b2693
nop
.block b2694
nop
.block b2695
nop
.block b2696
nop
.block b2697
nop
.block b2698
nop
.block b2699
nop
.block b2700
nop
.block b2701
nop
.block b2702
nop
.block b2703
nop
.block b2704
nop
.block b2705
nop
.block b2706
nop
.block b2707
nop
.block b2708
nop
.block b2709
nop
.block b2710
nop
.block b2711
nop
.block b2712
nop
.block b2713
nop
.block b2714
nop
.block b2715
nop
.block b2716
nop
.block b2717
nop
.block b2718
nop
.block b2719
nop
.block b2720
nop
.block b2721
nop
.block b2722
nop
.block b2723
nop
.block b2724
nop
.block b2725
nop
.block b2726
nop
.block b2727
nop
.block b2728
nop
.block b2729
nop
.block b2730
nop
.block b2731
nop
.block b2732
nop
.block b2733
nop
.block b2734
nop
.block b2735
nop
.block b2736
nop
.block b2737
nop
.block b2738
nop
.block b2739
nop
.block b2740
nop
.block b2741
nop
.block b2742
nop
.block b2743
nop
.block b2744
nop
.block b2745
nop
.block b2746
nop
.block b2747
nop
.block b2748
nop
.block b2749
nop
.block b2750
nop
.block b2751
nop
.block b2752
nop
.block b2753
nop
.block b2754
nop
.block b2755
nop
.block b2756
nop
.block b2757
nop
.block b2758
nop
.block b2759
nop
.block b2760
nop
.block b2761
nop
.block b2762
nop
.block b2763
nop
.block b2764
nop
.block b2765
nop
.block b2766
nop
.block b2767
nop
.block b2768
nop
.block b2769
nop
.block b2770
nop
.block b2771
nop
.block b2772
nop
.block b2773
nop
.block b2774
nop
.block b2775
nop
.block b2776
nop
.block b2777
nop
.block b2778
nop
.block b2779
nop
.block b2780
nop
.block b2781
nop
.block b2782
nop
.block b2783
nop
.block b2784
nop
.block b2785
nop
.block b2786
nop
.block b2787
nop
.block b2788
nop
.block b2789
nop
.block b2790
nop
.block b2791
nop
.block b2792
nop
.block b2793
nop
.block b2794
nop
.block b2795
nop
.block b2796
nop
.block b2797
nop
.block b2798
nop
.block b2799
nop
.block b2800
nop
.block b2801
nop
.block b2802
nop
.block b2803
nop
.block b2804
nop
.block b2805
nop
.block b2806
nop
.block b2807
nop
.block b2808
nop
.block b2809
nop
.block b2810
nop
.block b2811
nop
.block b2812
nop
.block b2813
nop
.block b2814
nop
.block b2815
nop
.block b2816
nop
.block b2817
nop
.block b2818
nop
.block b2819
nop
.block b2820
nop
.block b2821
nop
.block b2822
nop
.block b2823
nop
.block b2824
nop
.block b2825
nop
.block b2826
nop
.block b2827
nop
.block b2828
nop
.block b2829
nop
.block b2830
nop
.block b2831
nop
.block b2832
nop
.block b2833
nop
.block b2834
nop
.block b2835
nop
.block b2836
nop
.block b2837
nop
.block b2838
nop
.block b2839
nop
.block b2840
nop
.block b2841
nop
.block b2842
nop
.block b2843
nop
.block b2844
nop
.block b2845
nop
.block b2846
nop
.block b2847
nop
.block b2848
nop
.block b2849
nop
.block b2850
nop
.block b2851
nop
.block b2852
nop
.block b2853
nop
.block b2854
nop
.block b2855
nop
.block b2856
nop
.block b2857
nop
.block b2858
nop
.block b2859
nop
.block b2860
nop
.block b2861
nop
.block b2862
nop
.block b2863
nop
.block b2864
nop
.block b2865
nop
.block b2866
nop
.block b2867
nop
.block b2868
nop
.block b2869
nop
.block b2870
nop
.block b2871
nop
.block b2872
nop
.block b2873
nop
.block b2874
nop
.block b2875
nop
.block b2876
nop
.block b2877
nop
.block b2878
nop
.block b2879
nop
.block b2880
nop
.block b2881
nop
.block b2882
nop
.block b2883
nop
.block b2884
nop
.block b2885
nop
.block b2886
nop
.block b2887
nop
.block b2888
nop
.block b2889
nop
.block b2890
nop
.block b2891
nop
.block b2892
nop
.block b2893
nop
.block b2894
nop
.block b2895
nop
.block b2896
nop
.block b2897
nop
.block b2898
nop
.block b2899
nop
.block b2900
nop
.block b2901
nop
.block b2902
nop
.block b2903
nop
.block b2904
nop
.block b2905
nop
.block b2906
nop
.block b2907
nop
.block b2908
nop
.block b2909
nop
.block b2910
nop
.block b2911
nop
.block b2912
nop
.block b2913
nop
.block b2914
nop
.block b2915
nop
.block b2916
nop
.block b2917
nop
.block b2918
nop
.block b2919
nop
.block b2920
nop
.block b2921
nop
.block b2922
nop
.block b2923
nop
.block b2924
nop
.block b2925
nop
.block b2926
nop
.block b2927
nop
.block b2928
nop
.block b2929
nop
.block b2930
nop
.block b2931
nop
.block b2932
nop
.block b2933
nop
.block b2934
nop
.block b2935
nop
.block b2936
nop
.block b2937
nop
.block b2938
nop
.block b2939
nop
.block b2940
nop
.block b2941
nop
.block b2942
nop
.block b2943
nop
.block b2944
nop
.block b2945
nop
.block b2946
nop
.block b2947
nop
.block b2948
nop
.block b2949
nop
.block b2950
nop
.block b2951
nop
.block b2952
nop
.block b2953
nop
.block b2954
nop
.block b2955
nop
.block b2956
nop
.block b2957
nop
.block b2958
nop
.block b2959
nop
.block b2960
nop
.block b2961
nop
.block b2962
nop
.block b2963
nop
.block b2964
nop
.block b2965
nop
.block b2966
nop
.block b2967
nop
.block b2968
nop
.block b2969
nop
.block b2970
nop
.block b2971
nop
.block b2972
nop
.block b2973
nop
.block b2974
nop
.block b2975
nop
.block b2976
nop
.block b2977
nop
.block b2978
nop
.block b2979
nop
.block b2980
nop
.block b2981
nop
.block b2982
nop
.block b2983
nop
.block b2984
nop
.block b2985
nop
.block b2986
nop
.block b2987
nop
.block b2988
nop
.block b2989
nop
.block b2990
nop
.block b2991
nop
.block b2992
nop
.block b2993
nop
.block b2994
nop
.block b2995
nop
.block b2996
nop
.block b2997
nop
.block b2998
nop
.block b2999
nop
.block b3000
nop
.block b3001
nop
.block b3002
nop
.block b3003
nop
.block b3004
nop
.block b3005
nop
.block b3006
nop
.block b3007
nop
.block b3008
nop
.block b3009
nop
.block b3010
nop
.block b3011
nop
.block b3012
nop
.block b3013
nop
.block b3014
nop
.block b3015
nop
.block b3016
nop
.block b3017
nop
.block b3018
nop
.block b3019
nop
.block b3020
nop
.block b3021
nop
.block b3022
nop
.block b3023
nop
.block b3024
nop
.block b3025
nop
.block b3026
nop
.block b3027
nop
.block b3028
nop
.block b3029
nop
.block b3030
nop
.block b3031
nop
.block b3032
nop
.block b3033
nop
.block b3034
nop
.block b3035
nop
.block b3036
nop
.block b3037
nop
.block b3038
nop
.block b3039
nop
.block b3040
nop
.block b3041
nop
.block b3042
nop
.block b3043
nop
.block b3044
nop
.block b3045
nop
.block b3046
nop
.block b3047
nop
.block b3048
nop
.block b3049
nop
.block b3050
nop
.block b3051
nop
.block b3052
nop
.block b3053
nop
.block b3054
nop
.block b3055
nop
.block b3056
nop
.block b3057
nop
.block b3058
nop
.block b3059
nop
.block b3060
nop
.block b3061
nop
.block b3062
nop
.block b3063
nop
.block b3064
nop
.block b3065
nop
.block b3066
nop
.block b3067
nop
.block b3068
nop
.block b3069
nop
.block b3070
nop
.block b3071
nop
.block b3072
nop
.block b3073
nop
.block b3074
nop
.block b3075
nop
.block b3076
nop
.block b3077
nop
.block b3078
nop
.block b3079
nop
.block b3080
nop
.block b3081
nop
.block b3082
nop
.block b3083
nop
.block b3084
nop
.block b3085
nop
.block b3086
nop
.block b3087
nop
.block b3088
nop
.block b3089
nop
.block b3090
nop
.block b3091
nop
.block b3092
nop
.block b3093
nop
.block b3094
nop
.block b3095
nop
.block b3096
nop
.block b3097
nop
.block b3098
nop
.block b3099
nop
.block b3100
nop
.block b3101
nop
.block b3102
nop
.block b3103
nop
.block b3104
nop
.block b3105
nop
.block b3106
nop
.block b3107
nop
.block b3108
nop
.block b3109
nop
.block b3110
nop
.block b3111
nop
.block b3112
nop
.block b3113
nop
.block b3114
nop
.block b3115
nop
.block b3116
nop
.block b3117
nop
.block b3118
nop
.block b3119
nop
.block b3120
nop
.block b3121
nop
.block b3122
nop
.block b3123
nop
.block b3124
nop
.block b3125
nop
.block b3126
nop
.block b3127
nop
.block b3128
nop
.block b3129
nop
.block b3130
nop
.block b3131
nop
.block b3132
nop
.block b3133
nop
.block b3134
nop
.block b3135
nop
.block b3136
nop
.block b3137
nop
.block b3138
nop
.block b3139
nop
.block b3140
nop
.block b3141
nop
.block b3142
nop
.block b3143
nop
.block b3144
nop
.block b3145
nop
.block b3146
nop
.block b3147
nop
.block b3148
nop
.block b3149
nop
.block b3150
nop
.block b3151
nop
.block b3152
nop
.block b3153
nop
.block b3154
nop
.block b3155
nop
.block b3156
nop
.block b3157
nop
.block b3158
nop
.block b3159
nop
.block b3160
nop
.block b3161
nop
.block b3162
nop
.block b3163
nop
.block b3164
nop
.block b3165
nop
.block b3166
nop
.block b3167
nop
.block b3168
nop
.block b3169
nop
.block b3170
nop
.block b3171
nop
.block b3172
nop
.block b3173
nop
.block b3174
nop
.block b3175
nop
.block b3176
nop
.block b3177
nop
.block b3178
nop
.block b3179
nop
.block b3180
nop
.block b3181
nop
.block b3182
nop
.block b3183
nop
.block b3184
nop
.block b3185
nop
.block b3186
nop
.block b3187
nop
.block b3188
nop
.block b3189
nop
.block b3190
nop
.block b3191
nop
.block b3192
nop
.block b3193
nop
.block b3194
nop
.block b3195
nop
.block b3196
nop
.block b3197
nop
.block b3198
nop
.block b3199
nop
.block b3200
nop
.block b3201
nop
.block b3202
nop
.block b3203
nop
.block b3204
nop
.block b3205
nop
.block b3206
nop
.block b3207
nop
.block b3208
nop
.block b3209
nop
.block b3210
nop
.block b3211
nop
.block b3212
nop
.block b3213
nop
.block b3214
nop
.block b3215
nop
.block b3216
nop
.block b3217
nop
.block b3218
nop
.block b3219
nop
.block b3220
nop
.block b3221
nop
.block b3222
nop
.block b3223
nop
.block b3224
nop
.block b3225
nop
.block b3226
nop
.block b3227
nop
.block b3228
nop
.block b3229
nop
.block b3230
nop
.block b3231
nop
.block b3232
nop
.block b3233
nop
.block b3234
nop
.block b3235
nop
.block b3236
nop
.block b3237
nop
.block b3238
nop
.block b3239
nop
.block b3240
nop
.block b3241
nop
.block b3242
nop
.block b3243
nop
.block b3244
nop
.block b3245
nop
.block b3246
nop
.block b3247
nop
.block b3248
nop
.block b3249
nop
.block b3250
nop
.block b3251
nop
.block b3252
nop
.block b3253
nop
.block b3254
nop
.block b3255
nop
.block b3256
nop
.block b3257
nop
.block b3258
nop
.block b3259
nop
.block b3260
nop
.block b3261
nop
.block b3262
nop
.block b3263
nop
.block b3264
nop
.block b3265
nop
.block b3266
nop
.block b3267
nop
.block b3268
nop
.block b3269
nop
.block b3270
nop
.block b3271
nop
.block b3272
nop
.block b3273
nop
.block b3274
nop
.block b3275
nop
.block b3276
nop
.block b3277
nop
.block b3278
nop
.block b3279
nop
.block b3280
nop
.block b3281
nop
.block b3282
nop
.block b3283
nop
.block b3284
nop
.block b3285
nop
.block b3286
nop
.block b3287
nop
.block b3288
nop
.block b3289
nop
.block b3290
nop
.block b3291
nop
.block b3292
nop
.block b3293
nop
.block b3294
nop
.block b3295
nop
.block b3296
nop
.block b3297
nop
.block b3298
nop
.block b3299
nop
.block b3300
nop
.block b3301
nop
.block b3302
nop
.block b3303
nop
.block b3304
nop
.block b3305
nop
.block b3306
nop
.block b3307
nop
.block b3308
nop
.block b3309
nop
.block b3310
nop
.block b3311
nop
.block b3312
nop
.block b3313
nop
.block b3314
nop
.block b3315
nop
.block b3316
nop
.block b3317
nop
.block b3318
nop
.block b3319
nop
.block b3320
nop
.block b3321
nop
.block b3322
nop
.block b3323
nop
.block b3324
nop
.block b3325
nop
.block b3326
nop
.block b3327
nop
.block b3328
nop
.block b3329
nop
.block b3330
nop
.block b3331
nop
.block b3332
nop
.block b3333
nop
.block b3334
nop
.block b3335
nop
.block b3336
nop
.block b3337
nop
.block b3338
nop
.block b3339
nop
.block b3340
nop
.block b3341
nop
.block b3342
nop
.block b3343
nop
.block b3344
nop
.block b3345
nop
.block b3346
nop
.block b3347
nop
.block b3348
nop
.block b3349
nop
.block b3350
nop
.block b3351
nop
.block b3352
nop
.block b3353
nop
.block b3354
nop
.block b3355
nop
.block b3356
nop
.block b3357
nop
.block b3358
nop
.block b3359
nop
.block b3360
nop
.block b3361
nop
.block b3362
nop
.block b3363
nop
.block b3364
nop
.block b3365
nop
.block b3366
nop
.block b3367
nop
.block b3368
nop
.block b3369
nop
.block b3370
nop
.block b3371
nop
.block b3372
nop
.block b3373
nop
.block b3374
nop
.block b3375
nop
.block b3376
nop
.block b3377
nop
.block b3378
nop
.block b3379
nop
.block b3380
nop
.block b3381
nop
.block b3382
nop
.block b3383
nop
.block b3384
nop
.block b3385
nop
.block b3386
nop
.block b3387
nop
.block b3388
nop
.block b3389
nop
.block b3390
nop
.block b3391
nop
.block b3392
nop
.block b3393
nop
.block b3394
nop
.block b3395
nop
.block b3396
nop
.block b3397
nop
.block b3398
nop
.block b3399
nop
.block b3400
nop
.block b3401
nop
.block b3402
nop
.block b3403
nop
.block b3404
nop
.block b3405
nop
.block b3406
nop
.block b3407
nop
.block b3408
nop
.block b3409
nop
.block b3410
nop
.block b3411
nop
.block b3412
nop
.block b3413
nop
.block b3414
nop
.block b3415
nop
.block b3416
nop
.block b3417
nop
.block b3418
nop
.block b3419
nop
.block b3420
nop
.block b3421
nop
.block b3422
nop
.block b3423
nop
.block b3424
nop
.block b3425
nop
.block b3426
nop
.block b3427
nop
.block b3428
nop
.block b3429
nop
.block b3430
nop
.block b3431
nop
.block b3432
nop
.block b3433
nop
.block b3434
nop
.block b3435
nop
.block b3436
nop
.block b3437
nop
.block b3438
nop
.block b3439
nop
.block b3440
nop
.block b3441
nop
.block b3442
nop
.block b3443
nop
.block b3444
nop
.block b3445
nop
.block b3446
nop
.block b3447
nop
.block b3448
nop
.block b3449
nop
.block b3450
nop
.block b3451
nop
.block b3452
nop
.block b3453
nop
.block b3454
nop
.block b3455
nop
.block b3456
nop
.block b3457
nop
.block b3458
nop
.block b3459
nop
.block b3460
nop
.block b3461
nop
.block b3462
nop
.block b3463
nop
.block b3464
nop
.block b3465
nop
.block b3466
nop
.block b3467
nop
.block b3468
nop
.block b3469
nop
.block b3470
nop
.block b3471
nop
.block b3472
nop
.block b3473
nop
.block b3474
nop
.block b3475
nop
.block b3476
nop
.block b3477
nop
.block b3478
nop
.block b3479
nop
.block b3480
nop
.block b3481
nop
.block b3482
nop
.block b3483
nop
.block b3484
nop
.block b3485
nop
.block b3486
nop
.block b3487
nop
.block b3488
nop
.block b3489
nop
.block b3490
nop
.block b3491
nop
.block b3492
nop
.block b3493
nop
.block b3494
nop
.block b3495
nop
.block b3496
nop
.block b3497
nop
.block b3498
nop
.block b3499
nop
.block b3500
nop
.block b3501
nop
.block b3502
nop
.block b3503
nop
.block b3504
nop
.block b3505
nop
.block b3506
nop
.block b3507
nop
.block b3508
nop
.block b3509
nop
.block b3510
nop
.block b3511
nop
.block b3512
nop
.block b3513
nop
.block b3514
nop
.block b3515
nop
.block b3516
nop
.block b3517
nop
.block b3518
nop
.block b3519
nop
.block b3520
nop
.block b3521
nop
.block b3522
nop
.block b3523
nop
.block b3524
nop
.block b3525
nop
.block b3526
nop
.block b3527
nop
.block b3528
nop
.block b3529
nop
.block b3530
nop
.block b3531
nop
.block b3532
nop
.block b3533
nop
.block b3534
nop
.block b3535
nop
.block b3536
nop
.block b3537
nop
.block b3538
nop
.block b3539
nop
.block b3540
nop
.block b3541
nop
.block b3542
nop
.block b3543
nop
.block b3544
nop
.block b3545
nop
.block b3546
nop
.block b3547
nop
.block b3548
nop
.block b3549
nop
.block b3550
nop
.block b3551
nop
.block b3552
nop
.block b3553
nop
.block b3554
nop
.block b3555
nop
.block b3556
nop
.block b3557
nop
.block b3558
nop
.block b3559
nop
.block b3560
nop
.block b3561
nop
.block b3562
nop
.block b3563
nop
.block b3564
nop
.block b3565
nop
.block b3566
nop
.block b3567
nop
.block b3568
nop
.block b3569
nop
.block b3570
nop
.block b3571
nop
.block b3572
nop
.block b3573
nop
.block b3574
nop
.block b3575
nop
.block b3576
nop
.block b3577
nop
.block b3578
nop
.block b3579
nop
.block b3580
nop
.block b3581
nop
.block b3582
nop
.block b3583
nop
.block b3584
nop
.block b3585
nop
.block b3586
nop
.block b3587
nop
.block b3588
nop
.block b3589
nop
.block b3590
nop
.block b3591
nop
.block b3592
nop
.block b3593
nop
.block b3594
nop
.block b3595
nop
.block b3596
nop
.block b3597
nop
.block b3598
nop
.block b3599
nop
.block b3600
nop
.block b3601
nop
.block b3602
nop
.block b3603
nop
.block b3604
nop
.block b3605
nop
.block b3606
nop
.block b3607
nop
.block b3608
nop
.block b3609
nop
.block b3610
nop
.block b3611
nop
.block b3612
nop
.block b3613
nop
.block b3614
nop
.block b3615
nop
.block b3616
nop
.block b3617
nop
.block b3618
nop
.block b3619
nop
.block b3620
nop
.block b3621
nop
.block b3622
nop
.block b3623
nop
.block b3624
nop
.block b3625
nop
.block b3626
nop
.block b3627
nop
.block b3628
nop
.block b3629
nop
.block b3630
nop
.block b3631
nop
.block b3632
nop
.block b3633
nop
.block b3634
nop
.block b3635
nop
.block b3636
nop
.block b3637
nop
.block b3638
nop
.block b3639
nop
.block b3640
nop
.block b3641
nop
.block b3642
nop
.block b3643
nop
.block b3644
nop
.block b3645
nop
.block b3646
nop
.block b3647
nop
.block b3648
nop
.block b3649
nop
.block b3650
nop
.block b3651
nop
.block b3652
nop
.block b3653
nop
.block b3654
nop
.block b3655
nop
.block b3656
nop
.block b3657
nop
.block b3658
nop
.block b3659
nop
.block b3660
nop
.block b3661
nop
.block b3662
nop
.block b3663
nop
.block b3664
nop
.block b3665
nop
.block b3666
nop
.block b3667
nop
.block b3668
nop
.block b3669
nop
.block b3670
nop
.block b3671
nop
.block b3672
nop
.block b3673
nop
.block b3674
nop
.block b3675
nop
.block b3676
nop
.block b3677
nop
.block b3678
nop
.block b3679
nop
.block b3680
nop
.block b3681
nop
.block b3682
nop
.block b3683
nop
.block b3684
nop
.block b3685
nop
.block b3686
nop
.block b3687
nop
.block b3688
nop
.block b3689
nop
.block b3690
nop
.block b3691
nop
.block b3692
nop
.block b3693
nop
.block b3694
nop
.block b3695
nop
.block b3696
nop
.block b3697
nop
.block b3698
nop
.block b3699
nop
.block b3700
nop
.block b3701
nop
.block b3702
nop
.block b3703
nop
.block b3704
nop
.block b3705
nop
.block b3706
nop
.block b3707
nop
.block b3708
nop
.block b3709
nop
.block b3710
nop
.block b3711
nop
.block b3712
nop
.block b3713
nop
.block b3714
nop
.block b3715
nop
.block b3716
nop
.block b3717
nop
.block b3718
nop
.block b3719
nop
.block b3720
nop
.block b3721
nop
.block b3722
nop
.block b3723
nop
.block b3724
nop
.block b3725
nop
.block b3726
nop
.block b3727
nop
.block b3728
nop
.block b3729
nop
.block b3730
nop
.block b3731
nop
.block b3732
nop
.block b3733
nop
.block b3734
nop
.block b3735
nop
.block b3736
nop
.block b3737
nop
.block b3738
nop
.block b3739
nop
.block b3740
nop
.block b3741
nop
.block b3742
nop
.block b3743
nop
.block b3744
nop
.block b3745
nop
.block b3746
nop
.block b3747
nop
.block b3748
nop
.block b3749
nop
.block b3750
nop
.block b3751
nop
.block b3752
nop
.block b3753
nop
.block b3754
nop
.block b3755
nop
.block b3756
nop
.block b3757
nop
.block b3758
nop
.block b3759
nop
.block b3760
nop
.block b3761
nop
.block b3762
nop
.block b3763
nop
.block b3764
nop
.block b3765
nop
.block b3766
nop
.block b3767
nop
.block b3768
nop
.block b3769
nop
.block b3770
nop
.block b3771
nop
.block b3772
nop
.block b3773
nop
.block b3774
nop
.block b3775
nop
.block b3776
nop
.block b3777
nop
.block b3778
nop
.block b3779
nop
.block b3780
nop
.block b3781
nop
.block b3782
nop
.block b3783
nop
.block b3784
nop
.block b3785
nop
.block b3786
nop
.block b3787
nop
.block b3788
nop
.block b3789
nop
.block b3790
nop
.block b3791
nop
.block b3792
nop
.block b3793
nop
.block b3794
nop
.block b3795
nop
.block b3796
nop
.block b3797
nop
.block b3798
nop
.block b3799
nop
.block b3800
nop
.block b3801
nop
.block b3802
nop
.block b3803
nop
.block b3804
nop
.block b3805
nop
.block b3806
nop
.block b3807
nop
.block b3808
nop
.block b3809
nop
.block b3810
nop
.block b3811
nop
.block b3812
nop
.block b3813
nop
.block b3814
nop
.block b3815
nop
.block b3816
nop
.block b3817
nop
.block b3818
nop
.block b3819
nop
.block b3820
nop
.block b3821
nop
.block b3822
nop
.block b3823
nop
.block b3824
nop
.block b3825
nop
.block b3826
nop
.block b3827
nop
.block b3828
nop
.block b3829
nop
.block b3830
nop
.block b3831
nop
.block b3832
nop
.block b3833
nop
.block b3834
nop
.block b3835
nop
.block b3836
nop
.block b3837
nop
.block b3838
nop
.block b3839
nop
.block b3840
nop
.block b3841
nop
.block b3842
nop
.block b3843
nop
.block b3844
nop
.block b3845
nop
.block b3846
nop
.block b3847
nop
.block b3848
nop
.block b3849
nop
.block b3850
nop
.block b3851
nop
.block b3852
nop
.block b3853
nop
.block b3854
nop
.block b3855
nop
.block b3856
nop
.block b3857
nop
.block b3858
nop
.block b3859
nop
.block b3860
nop
.block b3861
nop
.block b3862
nop
.block b3863
nop
.block b3864
nop
.block b3865
nop
.block b3866
nop
.block b3867
nop
.block b3868
nop
.block b3869
nop
.block b3870
nop
.block b3871
nop
.block b3872
nop
.block b3873
nop
.block b3874
nop
.block b3875
nop
.block b3876
nop
.block b3877
nop
.block b3878
nop
.block b3879
nop
.block b3880
nop
.block b3881
nop
.block b3882
nop
.block b3883
nop
.block b3884
nop
.block b3885
nop
.block b3886
nop
.block b3887
nop
.block b3888
nop
.block b3889
nop
.block b3890
nop
.block b3891
nop
.block b3892
nop
.block b3893
nop
.block b3894
nop
.block b3895
nop
.block b3896
nop
.block b3897
nop
.block b3898
nop
.block b3899
nop
.block b3900
nop
.block b3901
nop
.block b3902
nop
.block b3903
nop
.block b3904
nop
.block b3905
nop
.block b3906
nop
.block b3907
nop
.block b3908
nop
.block b3909
nop
.block b3910
nop
.block b3911
nop
.block b3912
nop
.block b3913
nop
.block b3914
nop
.block b3915
nop
.block b3916
nop
.block b3917
nop
.block b3918
nop
.block b3919
nop
.block b3920
nop
.block b3921
nop
.block b3922
nop
.block b3923
nop
.block b3924
nop
.block b3925
nop
.block b3926
nop
.block b3927
nop
.block b3928
nop
.block b3929
nop
.block b3930
nop
.block b3931
nop
.block b3932
nop
.block b3933
nop
.block b3934
nop
.block b3935
nop
.block b3936
nop
.block b3937
nop
.block b3938
nop
.block b3939
nop
.block b3940
nop
.block b3941
nop
.block b3942
nop
.block b3943
nop
.block b3944
nop
.block b3945
nop
.block b3946
nop
.block b3947
nop
.block b3948
nop
.block b3949
nop
.block b3950
nop
.block b3951
nop
.block b3952
nop
.block b3953
nop
.block b3954
nop
.block b3955
nop
.block b3956
nop
.block b3957
nop
.block b3958
nop
.block b3959
nop
.block b3960
nop
.block b3961
nop
.block b3962
nop
.block b3963
nop
.block b3964
nop
.block b3965
nop
.block b3966
nop
.block b3967
nop
.block b3968
nop
.block b3969
nop
.block b3970
nop
.block b3971
nop
.block b3972
nop
.block b3973
nop
.block b3974
nop
.block b3975
nop
.block b3976
nop
.block b3977
nop
.block b3978
nop
.block b3979
nop
.block b3980
nop
.block b3981
nop
.block b3982
nop
.block b3983
nop
.block b3984
nop
.block b3985
nop
.block b3986
nop
.block b3987
nop
.block b3988
nop
.block b3989
nop
.block b3990
nop
.block b3991
nop
.block b3992
nop
.block b3993
nop
.block b3994
nop
.block b3995
nop
.block b3996
nop
.block b3997
nop
.block b3998
nop
.block b3999
nop
.block b4000
nop
.block b4001
nop
.block b4002
nop
.block b4003
nop
.block b4004
nop
.block b4005
nop
.block b4006
nop
.block b4007
nop
.block b4008
nop
.block b4009
nop
.block b4010
nop
.block b4011
nop
.block b4012
nop
.block b4013
nop
.block b4014
nop
.block b4015
nop
.block b4016
nop
.block b4017
nop
.block b4018
nop
.block b4019
nop
.block b4020
nop
.block b4021
nop
.block b4022
nop
.block b4023
nop
.block b4024
nop
.block b4025
nop
.block b4026
nop
.block b4027
nop
.block b4028
nop
.block b4029
nop
.block b4030
nop
.block b4031
nop
.block b4032
nop
.block b4033
nop
.block b4034
nop
.block b4035
nop
.block b4036
nop
.block b4037
nop
.block b4038
nop
.block b4039
nop
.block b4040
nop
.block b4041
nop
.block b4042
nop
.block b4043
nop
.block b4044
nop
.block b4045
nop
.block b4046
nop
.block b4047
nop
.block b4048
nop
.block b4049
nop
.block b4050
nop
.block b4051
nop
.block b4052
nop
.block b4053
nop
.block b4054
nop
.block b4055
nop
.block b4056
nop
.block b4057
nop
.block b4058
nop
.block b4059
nop
.block b4060
nop
.block b4061
nop
.block b4062
nop
.block b4063
nop
.block b4064
nop
.block b4065
nop
.block b4066
nop
.block b4067
nop
.block b4068
nop
.block b4069
nop
.block b4070
nop
.block b4071
nop
.block b4072
nop
.block b4073
nop
.block b4074
nop
.block b4075
nop
.block b4076
nop
.block b4077
nop
.block b4078
nop
.block b4079
nop
.block b4080
nop
.block b4081
nop
.block b4082
nop
.block b4083
nop
.block b4084
nop
.block b4085
nop
.block b4086
nop
.block b4087
nop
.block b4088
nop
.block b4089
nop
.block b4090
nop
.block b4091
nop
.block b4092
nop
.block b4093
nop
.block b4094
nop
.block b4095
nop
